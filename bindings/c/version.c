/* Which version of the library is linked. */
#include "wgsl.h"

const char *wgsl_version(void) { return WGSL_VERSION; }
