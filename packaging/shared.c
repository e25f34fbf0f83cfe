/* The functions of the headers, once, for the shared library: so programs in other languages need no C of their own. */
#define FACING_API __attribute__((visibility("default")))
#define FACING_CHECKED
#include "facing_pool.h"
