/* The fast C behind the calls of tests/calls.h: tried there, and an example of an adapter. */
#include "../tests/calls.h"

extern const struct calls fast_calls;
