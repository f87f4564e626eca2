/* The version of the library, which include/install builds into both kinds of it. */
#include "ratio.h"

const char *ratio_version(void) {
    return RATIO_VERSION;
}
