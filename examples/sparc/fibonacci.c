/* A Fibonacci number, by a function that calls itself. */
#include "numbers.h"

static unsigned fibonacci(unsigned n)
{
  return n < 2 ? n : fibonacci(n - 1) + fibonacci(n - 2);
}

int main(void)
{
  put_number(fibonacci(get_number()));
  return 0;
}
