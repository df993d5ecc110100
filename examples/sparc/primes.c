/* How many primes there are below a number, by the sieve of Eratosthenes. */
#include "numbers.h"

static unsigned char crossed[8000000];

int main(void)
{
  unsigned limit = get_number(), count = 0;
  if (limit > sizeof crossed)
    return 1;
  for (unsigned n = 2; n < limit; n++)
    if (!crossed[n]) {
      count++;
      for (unsigned k = 2 * n; k < limit; k += n)
        crossed[k] = 1;
    }
  put_number(count);
  return 0;
}
