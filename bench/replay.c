/* Also calls the benchmark's own exports. */
#define DECISIONS
#include "../compare/replay.c"
