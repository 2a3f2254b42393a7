/* What the files of the runtime share; no program needs it. */
#ifndef ASLR_INSIDE_H
#define ASLR_INSIDE_H

#include "asl_runtime.h"
#include <pthread.h>
#include <time.h>

/* ---- requests: nodes that rise, each once, with the mode that is asked there */

/* a node, 8 bits on, and its mode below */
typedef uint64_t want;

static inline uint64_t node_of(want one) { return one >> 8; }
static inline uint8_t mode_of(want one) { return (uint8_t)one; }

typedef struct {
  size_t count;
  want *wants; /* with room for as many as the longest list of the program asks for */
} request;

/* Two modes clash where one has the 2 and the other the 4, or one has the 8 and the other the 1 (docs/LOCKS.md). */
static inline bool modes_clash(uint8_t a, uint8_t b) {
  return ((a & 2) && (b & 4)) || ((a & 4) && (b & 2)) || ((a & 8) && (b & 1)) || ((a & 1) && (b & 8));
}

/* asks for the mode at the node too, whose place among the others this is */
static inline void ask_at(request *all, size_t place, uint64_t node, uint8_t mode) {
  if (place < all->count && node_of(all->wants[place]) == node) {
    all->wants[place] |= mode;
    return;
  }
  for (size_t i = all->count; i > place; i--) all->wants[i] = all->wants[i - 1];
  all->wants[place] = node << 8 | mode;
  all->count++;
}

/* Asks for the mode at the node too. Its place is looked for from the end; what is above leaves stands in front, and is looked for from there,
 * behind so many others. */
static inline void ask(request *all, uint64_t node, uint8_t mode) {
  size_t place = all->count;
  while (place > 0 && node_of(all->wants[place - 1]) >= node) place--;
  ask_at(all, place, node, mode);
}

static inline void ask_above(request *all, size_t behind, uint64_t node, uint8_t mode) {
  size_t place = behind;
  while (place < all->count && node_of(all->wants[place]) < node) place++;
  ask_at(all, place, node, mode);
}

static inline bool same_request(const request *a, const request *b) {
  if (a->count != b->count) return false;
  for (size_t i = 0; i < a->count; i++)
    if (a->wants[i] != b->wants[i]) return false;
  return true;
}

/* ---- the runtime */

typedef struct {
  const aslr_lock *locks;
  uint32_t count;
  bool follows; /* an expression reads a cell */
} list;

typedef struct block {
  struct block *next;
} block;

typedef struct mine mine;

/* What an engine does. Each function but those that open and close is called by the thread that it names. */
typedef struct {
  uint32_t (*open)(aslr_runtime *runtime, const aslr_options *options);
  void (*close)(aslr_runtime *runtime);
  size_t thread_size; /* of what it keeps for a thread */
  uint32_t (*thread_open)(mine *self); /* its bytes are 0 */
  void (*thread_close)(mine *self);
  uint32_t (*acquire)(mine *self, const list *of, const aslr_value *registers);
  void (*release)(mine *self);
  bool (*covers)(mine *self, aslr_value at, bool writes);
} engine;

extern const engine aslr_forest_engine, aslr_words_engine;

struct aslr_runtime {
  const aslr_program *program;
  const engine *engine;
  void *engine_at;
  uint32_t list_count, longest; /* longest: so many nodes a request may have */
  list *lists;
  aslr_value *globals;
  uint32_t spin_ns, processors;
  bool shares_numbers;
  _Atomic uint64_t numbers_given;
  _Atomic uint64_t names_given; /* of sections */
  pthread_mutex_t mutex;        /* for what follows */
  mine *closed;                 /* threads that may be opened again */
  uint32_t open;
  block *blocks;
  aslr_counts counts;
};

/* A thread. Its memory stays until the runtime is closed: who woke it may look at it a moment longer. */
struct mine {
  aslr_thread thread;
  mine *next_closed;
  char *free_at, *free_end;
  uint64_t next_name, last_name; /* of its sections */
  void *at; /* what the engine keeps */
};

static inline mine *of_thread(aslr_thread *thread) { return (mine *)thread; }

/* ---- spinning: `for (spin s = spin_for(ns); !LOOK && spins(&s);) continue;` */

typedef struct {
  uint64_t until;
  unsigned turns;
} spin;

static inline uint64_t now(void) {
  struct timespec at;
  clock_gettime(CLOCK_MONOTONIC, &at);
  return (uint64_t)at.tv_sec * 1000000000u + (uint64_t)at.tv_nsec;
}

static inline spin spin_for(uint32_t ns) { return (spin){now() + ns, 0}; }

/* pauses for a moment; whether there is time for another look */
static inline bool spins(spin *self) {
#if defined __x86_64__ || defined __i386__
  __builtin_ia32_pause();
#elif defined __aarch64__
  __asm__ volatile("yield");
#endif
  return ++self->turns % 64 != 0 || now() < self->until;
}

/* ---- sleeping */

/* Until the condition is signalled, or sooner. A thread that is cancelled here ends where it next may: else it would stay among those who wait. */
static inline void sleep_on(pthread_cond_t *condition, pthread_mutex_t *mutex) {
  int before;
  pthread_setcancelstate(PTHREAD_CANCEL_DISABLE, &before);
  pthread_cond_wait(condition, mutex);
  pthread_setcancelstate(before, &before);
}

/* ---- the cell that an expression denotes */

typedef enum { NO_CELL, A_CELL, HELD_BACK } located;

/* Writes the cell that the expression denotes now. A cell on its way that may not be read now is written in its place, and it is held back.
 * `may_read` is NULL where each may be. */
static inline located locate(const aslr_runtime *runtime, const aslr_lock *lock, const aslr_value *registers,
                             bool (*may_read)(mine *, aslr_value), mine *self, aslr_value *at) {
  aslr_value v = lock->base == ASLR_GLOBAL ? runtime->globals[lock->at] : registers[lock->at];
  for (int i = 1; i <= lock->path[0]; i++) {
    if (!aslr_is_address(v)) return NO_CELL;
    if (lock->path[i] == ASLR_FOLLOW) {
      if (may_read && !may_read(self, v)) {
        *at = v;
        return HELD_BACK;
      }
      v = aslr_read_shared(aslr_cell_of(v));
    } else if (aslr_offset_of(v) + lock->path[i] < aslr_object_of(v)->size) {
      v += (aslr_value)lock->path[i] << 56;
    } else {
      return NO_CELL;
    }
  }
  *at = v;
  return aslr_is_address(v) ? A_CELL : NO_CELL;
}

#endif
