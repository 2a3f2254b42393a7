/* So many threads in sections at once that what they hold moves to the other structure, and back (runtime/asl_holding.h): each covers its own cell all
 * the time and no other; memory refused at each request of the move; who waits goes on after both moves. Link it as refusing.h says.
 * Run by tests/runtime. */
#define _POSIX_C_SOURCE 200809L
#include "asl_runtime.h"
#include "refusing.h"
#include <pthread.h>
#include <stdio.h>
#include <stdlib.h>
#include <time.h>

enum { FEW = 16, CROWD = 40 };

static int passed;

static void must(int line, bool holds) {
  if (!holds) {
    fprintf(stderr, "crowds.c:%d\n", line);
    exit(1);
  }
  passed++;
}
#define MUST(condition) must(__LINE__, condition)

static const aslr_lock on_cell[] = {{ASL_LEAF, ASL_X, ASLR_REGISTER, 0, {0}}, {ASLR_END, 0, 0, 0, {0}}};
static const aslr_lock *const lists[] = {on_cell, NULL};
static const uint16_t classes[] = {0};
static const aslr_program program = {2, 1, classes, lists, NULL};

typedef struct {
  aslr_runtime *runtime;
  aslr_thread *threads[CROWD];
  aslr_value cells[CROWD];
} crowd;

static void open_crowd(crowd *all, uint32_t at_once) {
  MUST(aslr_open(&program, &(aslr_options){.engine = ASLR_FOREST, .at_once = at_once}, &all->runtime) == ASLR_OK);
  for (int i = 0; i < CROWD; i++) {
    MUST(aslr_thread_open(all->runtime, &all->threads[i]) == ASLR_OK);
    MUST(aslr_object_new(all->threads[i], 1, 1, &all->cells[i]) == ASLR_OK);
  }
}

static void close_crowd(crowd *all) {
  for (int i = 0; i < CROWD; i++) MUST(aslr_thread_close(all->threads[i]) == ASLR_OK);
  MUST(aslr_close(all->runtime) == ASLR_OK);
}

static uint32_t enter(crowd *all, int i) { return aslr_section_enter(all->threads[i], 0, &all->cells[i]); }

/* Whether each thread that is in its section covers its cell and no other thread's, and who is in none covers nothing. */
static bool all_cover(const crowd *all) {
  for (int i = 0; i < CROWD; i++)
    for (int j = 0; j < CROWD; j++)
      if (aslr_may_access(all->threads[i], all->cells[j], true) != (i == j && all->threads[i]->depth > 0)) return false;
  return true;
}

/* All come in and go, in an order of their own each time, and so over both moves. */
static void comes_and_goes(void) {
  crowd all;
  open_crowd(&all, 0);
  for (int turn = 1; turn < CROWD; turn += 2) {
    if (turn % 5 == 0) continue; /* each number once */
    for (int i = 0; i < CROWD; i++) MUST(enter(&all, i * turn % CROWD) == ASLR_OK);
    MUST(all_cover(&all));
    for (int i = 0; i < CROWD; i++) {
      MUST(aslr_section_leave(all.threads[i * (CROWD - turn) % CROWD]) == ASLR_OK);
      if (i > CROWD - 8) MUST(all_cover(&all));
    }
  }
  close_crowd(&all);
}

/* The first one too many moves all; where memory for that is refused, he is in no section and all others cover what they did. */
static int refuses_the_move(void) {
  crowd all;
  int refusals = 0;
  open_crowd(&all, 0);
  for (int i = 0; i < FEW; i++) MUST(enter(&all, i) == ASLR_OK);
  for (;; refusals++) {
    atomic_store(&granted, refusals);
    uint32_t status = enter(&all, FEW);
    atomic_store(&granted, -1);
    MUST(all_cover(&all));
    if (status == ASLR_OK) break;
    MUST(status == ASLR_NO_MEMORY && all.threads[FEW]->depth == 0);
  }
  for (int i = 0; i <= FEW; i++) MUST(aslr_section_leave(all.threads[i]) == ASLR_OK);
  close_crowd(&all);
  return refusals;
}

/* ---- who waits */

typedef struct {
  crowd *all;
  int self;
  uint32_t entered, left;
  atomic_bool came_in;
} visitor;

static void *visit(void *given) {
  visitor *v = given;
  v->entered = aslr_section_enter(v->all->threads[v->self], 0, &v->all->cells[0]);
  atomic_store(&v->came_in, true);
  v->left = aslr_section_leave(v->all->threads[v->self]);
  return NULL;
}

static void moment(void) { nanosleep(&(struct timespec){0, 200000000}, NULL); }

/* One waits for the first thread's cell while others come until all has moved, or go until all has moved back. */
static void waits_through_moves(int before, int meanwhile) {
  crowd all;
  pthread_t id;
  visitor v = {.all = &all, .self = CROWD - 1};
  open_crowd(&all, 0);
  for (int i = 0; i < before; i++) MUST(enter(&all, i) == ASLR_OK);
  MUST(pthread_create(&id, NULL, visit, &v) == 0);
  moment();
  for (int i = before; i < meanwhile; i++) MUST(enter(&all, i) == ASLR_OK);
  for (int i = before - 1; i >= meanwhile; i--) MUST(aslr_section_leave(all.threads[i]) == ASLR_OK);
  moment();
  MUST(!atomic_load(&v.came_in) && aslr_may_access(all.threads[0], all.cells[0], true));
  MUST(aslr_section_leave(all.threads[0]) == ASLR_OK);
  pthread_join(id, NULL);
  MUST(atomic_load(&v.came_in) && v.entered == ASLR_OK && v.left == ASLR_OK);
  for (int i = 1; i < meanwhile; i++) MUST(aslr_section_leave(all.threads[i]) == ASLR_OK);
  close_crowd(&all);
}

int main(void) {
  comes_and_goes();
  int refusals = refuses_the_move();
  MUST(refusals > 1);
  waits_through_moves(2, CROWD - 1);
  waits_through_moves(CROWD - 1, 2);
  printf("crowds: %d hold, with memory refused at each of %d requests of a move\n", passed, refusals);
}
