#include "plural.h"

const char *plural(size_t count)
{
  return count == 1 ? "" : "s";
}
