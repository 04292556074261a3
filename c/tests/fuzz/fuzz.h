/* What the parts of the fuzz share: random numbers by the seed, random sets, and arrays that end where memory ends. */
#ifndef FUZZ_H
#define FUZZ_H

#include "../tests.h"
#include "definitions.h"

/* A random number below the limit, which is not 0. */
uint64_t below(uint64_t limit);

/* Whether the one in `many` chance comes. */
static inline bool one_in(uint64_t many) { return below(many) == 0; }

/* A random number, of which half are at the ends of some range. */
uint32_t wild32(void);
uint64_t wild64(void);

/* An array of this many bytes, painted, that ends where a page begins that cannot be touched. A slot has one array at a time. */
void *at_edge(size_t bytes, int slot);
enum { SLOTS = 8 };

/* Whether the bytes still are as they were painted. */
bool is_painted(const void *bytes, size_t size);

/* A random set of at most `most` tasks: small periods, mostly admitted. */
size_t likely_set(edfvd_task *tasks, size_t most);

/* A copy of the tasks at an edge; null for no tasks, now and then. */
const edfvd_task *given(const edfvd_task *tasks, size_t count);

/* The parts: each makes one random case and compares what the library stores with the definitions. */
void try_sets(void);
void try_events(void);
void try_rows(void);
void try_words(void);

#endif
