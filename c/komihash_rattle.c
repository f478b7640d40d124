// All functions of the library for C, for every compiler.
#define KOMIHASH_RATTLE_IMPLEMENTATION
#include "komihash_rattle_inline.h"
