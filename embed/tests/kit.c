/* What the programs call of the kit's own C, which the kit has for x86-64 alone. embed/aarch64 links it into those for AArch64; no archive needs it. */
#include <errno.h>

int rattle_errno(void) { return errno; }
