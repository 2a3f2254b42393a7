/* What threads hold, under one guard: inside.h says who asks for what, asl_forest_engine.c who waits. */
#ifndef ASLR_HOLDING_H
#define ASLR_HOLDING_H

#include "inside.h"

enum { MOST_AT_ONCE = 128 };

/* What one thread holds. Who asks writes `asks` and `count`; they stay as they are while it holds them. */
typedef struct {
  asl_ask *asks;
  size_t count;
  uint32_t number; /* while it holds: among the threads of the forest or of the queue */
  uint32_t place;  /* while it holds: in `holds` */
} aslr_hold;

/* Two structures of asl.h grant what goes together and nothing else, and both are proved: a queue in which nobody waits, while few threads
 * hold something, and a lock forest while many do. For few the queue is the faster one, since it compares a request with what each thread holds, where
 * the forest looks at the row of each node; for many it is the slower one for the same reason. */
typedef struct {
  asl_queue few;
  asl_forest many;
  bool is_many;
  uint32_t at_once, count;
  aslr_hold *holds[MOST_AT_ONCE]; /* those that are granted */
  uint32_t free_count;
  uint8_t free[MOST_AT_ONCE]; /* numbers of the one of the two that is in use */
} aslr_holding;

/* Begin with all bytes 0. For requests of at most `longest` nodes, of at most `at_once` threads at a time. */
uint32_t aslr_holding_open(aslr_holding *all, uint32_t classes, uint32_t at_once, uint32_t longest);
void aslr_holding_close(aslr_holding *all);

static inline bool aslr_holding_is_full(const aslr_holding *all) { return all->count == all->at_once; }

/* Grants all that is asked, or nothing: returns ASLR_OK, ASL_IN_THE_WAY where another thread is, or ASLR_NO_MEMORY. It is not full. */
uint32_t aslr_holding_grant(aslr_holding *all, aslr_hold *one);
void aslr_holding_give_back(aslr_holding *all, aslr_hold *one);

/* Whether what is held covers the cell, whose mode is not read. */
bool aslr_holding_covers(aslr_holding *all, const aslr_hold *one, const asl_ask *cell, bool writes);

#endif
