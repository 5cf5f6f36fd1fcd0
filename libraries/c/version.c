/* The version of the library. */
#include "lgp30.h"

const char *lgp_version(void)
{
    return LGP_VERSION;
}
