/* A number from the input, and one to the output. */
int read(int descriptor, void *bytes, unsigned count);
int write(int descriptor, const void *bytes, unsigned count);

static unsigned get_number(void)
{
  unsigned char byte;
  unsigned number = 0;
  while (read(0, &byte, 1) == 1 && byte >= '0' && byte <= '9')
    number = 10 * number + (byte - '0');
  return number;
}

static void put_number(unsigned number)
{
  char line[11];
  int at = sizeof line;
  line[--at] = '\n';
  do {
    line[--at] = (char)('0' + number % 10);
    number /= 10;
  } while (number != 0);
  write(1, line + at, sizeof line - at);
}
