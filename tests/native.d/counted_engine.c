/* The engine `forest`, which counts in `comparisons` how often it compares two modes. Link it with --wrap=aslr_forest_engine: then it is taken in
 * place of the other. Linked by tests/runtime. */
#define _POSIX_C_SOURCE 200809L
#define aslr_forest_engine __wrap_aslr_forest_engine
#include "inside.h"

extern atomic_ullong comparisons;

#define modes_clash(a, b) (atomic_fetch_add(&comparisons, 1), modes_clash(a, b))
#include "asl_forest_engine.c"
