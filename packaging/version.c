#include "facing.h"

const char *facing_version(void) {
    return FACING_VERSION;
}
