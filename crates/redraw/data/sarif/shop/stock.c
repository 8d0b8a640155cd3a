#include <stdlib.h>

struct shelf *take (int n)
{
  struct shelf *s = malloc (n);
  if (n > 3)
    free (s);
  s->count = n;
  return s;
}
