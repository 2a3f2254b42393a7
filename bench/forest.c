/* What the calls of the lock forest cost from C, with nobody in the way, in nanoseconds of the processor: the least of 15 rounds for each number of nodes.
 * Requests are the root, a class, and leaves, in IX and X: in rising order, or with the leaves falling; "beside" means that another thread holds 64 leaves of the
 * same class. The plain row does the same work without a library: it compares each node with a table, and writes it there.
 * usage: forest */
#define _POSIX_C_SOURCE 200809L
#include "asl.h"
#include <stdio.h>
#include <stdlib.h>
#include <string.h>
#include <time.h>

enum { ROUNDS = 15, MOST = 258, SIZES = 5, OTHERS = 66 };

static const size_t sizes[SIZES] = {1, 4, 16, 66, MOST};
static asl_forest forest;
static asl_queue queue;
static uint32_t named[128];

static double now(void) {
  struct timespec at;
  clock_gettime(CLOCK_PROCESS_CPUTIME_ID, &at);
  return (double)at.tv_sec * 1e9 + (double)at.tv_nsec;
}

static void must(uint32_t status) {
  if (status == ASL_OK) return;
  fprintf(stderr, "forest: status %u\n", status);
  exit(1);
}

static bool is_falling;

static size_t request(asl_ask *asks, size_t nodes, uint16_t first) {
  asks[0] = (asl_ask){ASL_ROOT, ASL_IX, 0, 0, 0};
  if (nodes > 1) asks[1] = (asl_ask){ASL_CLASS, ASL_IX, 0, 1, 0};
  for (size_t i = 2; i < nodes; i++) asks[i] = (asl_ask){ASL_LEAF, ASL_X, 0, 1, (uint16_t)(first + (is_falling ? nodes - i : i))};
  return nodes;
}

static void by_forest(const asl_ask *asks, size_t count) {
  must(asl_forest_try_acquire(&forest, 0, asks, count));
  must(asl_forest_release(&forest, 0));
}

static void by_queue(const asl_ask *asks, size_t count) {
  size_t gone;
  must(asl_queue_acquire(&queue, 0, asks, count));
  must(asl_queue_release(&queue, 0, named, 128, &gone));
}

/* a table of bytes by node, and a copy of the request: what a plain forest of one thread's requests would do at least */
static uint8_t table[3 << 16];
static asl_ask held[MOST];

static void by_plain(const asl_ask *asks, size_t count) {
  for (size_t i = 0; i < count; i++)
    if (table[asks[i].kind << 16 | asks[i].object] & asks[i].mode) must(ASL_IN_THE_WAY);
  for (size_t i = 0; i < count; i++) table[asks[i].kind << 16 | asks[i].object] = asks[i].mode;
  memcpy(held, asks, count * sizeof *asks);
  for (size_t i = 0; i < count; i++) table[held[i].kind << 16 | held[i].object] = 0;
}

static double least_of(void (*turn)(const asl_ask *, size_t), size_t nodes) {
  static asl_ask asks[MOST];
  double least = 1e30;
  size_t count = request(asks, nodes, 0), turns = 2000000 / (100 + nodes * nodes);
  for (int r = 0; r < ROUNDS; r++) {
    double begin = now();
    for (size_t i = 0; i < turns; i++) turn(asks, count);
    double each = (now() - begin) / (double)turns;
    if (each < least) least = each;
  }
  return least;
}

static void row(const char *what, void (*turn)(const asl_ask *, size_t)) {
  printf("%-44s", what);
  for (int i = 0; i < SIZES; i++) printf(" %8.0f", least_of(turn, sizes[i]));
  printf("\n");
}

static void table_of(uint32_t threads) {
  asl_ask others[OTHERS];
  must(asl_forest_new(1024, threads, &forest));
  must(asl_queue_new(1024, threads, &queue));
  must(asl_queue_reserve(&queue, MOST));
  printf("%-44s", threads == 4 ? "4 threads; try_acquire and release, nodes:" : "128 threads");
  for (int i = 0; i < SIZES; i++) printf(" %8zu", sizes[i]);
  printf("\n");
  row("rising", by_forest);
  row("rising, by a queue", by_queue);
  is_falling = true;
  row("with leaves that fall", by_forest);
  is_falling = false;
  request(others, OTHERS, 1000);
  must(asl_forest_try_acquire(&forest, 1, others, OTHERS));
  must(asl_queue_acquire(&queue, 1, others, OTHERS));
  row("rising, beside 64 leaves of another", by_forest);
  row("rising, by a queue, beside 64 leaves", by_queue);
  must(asl_forest_free(&forest));
  must(asl_queue_free(&queue));
}

int main(void) {
  row("a table of bytes, with nothing around", by_plain);
  table_of(4);
  table_of(128);
}
