/* Random calls on a forest against a model of it: each status, what is held afterwards and what is covered must be the model's.
 * usage: random MILLISECONDS SEED. Link it with --wrap=malloc and --wrap=realloc. Run by tests/c and tests/by-hand/fuzz-library. */
#include "asl.h"
#include "refuse.h"
#include <stdio.h>
#include <stdlib.h>
#include <string.h>
#include <time.h>

enum { CLASSES = 3, THREADS = 4, OBJECTS = 3, OFFSETS = 2, MOST = 9 };

static asl_forest forest;
/* the modes that a thread holds at the root, at a class, at a leaf */
static struct { uint8_t root, classes[CLASSES], leaves[CLASSES][OBJECTS][OFFSETS]; } model[THREADS];
static uint64_t seed;

static uint32_t below(uint32_t limit) {
  seed ^= seed << 13;
  seed ^= seed >> 7;
  seed ^= seed << 17;
  return (uint32_t)(seed >> 16) % limit;
}

static void must(bool holds, const char *what) {
  if (holds) return;
  fprintf(stderr, "random: %s\n", what);
  exit(1);
}

static uint8_t *held(uint32_t thread, asl_ask at) {
  if (at.kind == ASL_ROOT) return &model[thread].root;
  if (at.kind == ASL_CLASS) return &model[thread].classes[at.klass];
  return &model[thread].leaves[at.klass][at.object][at.offset];
}

static bool is_mode(uint8_t code) { return code == ASL_IS || code == ASL_IX || code == ASL_S || code == ASL_SIX || code == ASL_X; }

static bool is_same(asl_ask a, asl_ask b) {
  return a.kind == b.kind && (a.kind == ASL_ROOT || (a.klass == b.klass && (a.kind == ASL_CLASS || (a.object == b.object && a.offset == b.offset))));
}

static bool clash(uint8_t a, uint8_t b) { return (a & 2 && b & 4) || (a & 4 && b & 2) || (a & 8 && b & 1) || (a & 1 && b & 8); }

static bool has_parent(const asl_ask *asks, size_t count, asl_ask ask) {
  uint8_t need = ask.mode == ASL_IS || ask.mode == ASL_S ? 1 : 2, kind = (uint8_t)(ask.kind - 1);
  if (ask.kind == ASL_ROOT) return true;
  for (size_t i = 0; i < count; i++)
    if (asks[i].kind == kind && (kind == ASL_ROOT || asks[i].klass == ask.klass)) return asks[i].mode & need;
  return false;
}

static bool is_twice(const asl_ask *asks, size_t count) {
  for (size_t i = 0; i < count; i++)
    for (size_t j = i + 1; j < count; j++)
      if (is_same(asks[i], asks[j])) return true;
  return false;
}

static bool is_in_the_way(uint32_t thread, const asl_ask *asks, size_t count) {
  for (uint32_t other = 0; other < THREADS; other++)
    for (size_t i = 0; i < count && other != thread; i++)
      if (clash(*held(other, asks[i]), asks[i].mode)) return true;
  return false;
}

static uint32_t fault_of(uint32_t thread, const asl_ask *asks, size_t count) {
  size_t i;
  if (thread >= THREADS) return ASL_BAD_THREAD;
  for (i = 0; i < count; i++)
    if (asks[i].kind > ASL_LEAF) return ASL_BAD_KIND;
  for (i = 0; i < count; i++)
    if (asks[i].kind != ASL_ROOT && asks[i].klass >= CLASSES) return ASL_BAD_CLASS;
  for (i = 0; i < count; i++)
    if (!is_mode(asks[i].mode)) return ASL_BAD_MODE;
  if (is_twice(asks, count)) return ASL_NODE_TWICE;
  for (i = 0; i < count; i++)
    if (!has_parent(asks, count, asks[i])) return ASL_NO_PARENT;
  return model[thread].root ? ASL_HOLDS : ASL_OK;
}

/* the root, then classes by number, then leaves by class, object and offset */
static int by_order(const void *left, const void *right) {
  const asl_ask *a = left, *b = right;
  if (a->kind != b->kind) return a->kind - b->kind;
  if (a->klass != b->klass) return a->klass - b->klass;
  if (a->object != b->object) return a->object - b->object;
  return a->offset - b->offset;
}

/* with its parents, in a good mode, every other time in order; or, one time in eight, as it falls */
static size_t draw(asl_ask *asks) {
  static const uint8_t codes[] = {ASL_IS, ASL_IX, ASL_S, ASL_SIX, ASL_X, ASL_NL, 2, 255};
  size_t count = below(MOST);
  for (size_t i = 0; i < count; i++)
    asks[i] = (asl_ask){(uint8_t)below(below(30) ? 3 : 4), codes[below(below(30) ? 5 : 8)], (uint8_t)below(OFFSETS),
                        (uint16_t)below(below(30) ? CLASSES : CLASSES + 1), (uint16_t)below(OBJECTS)};
  if (!below(8)) return count;
  size_t kept = 0;
  asl_ask drawn[MOST];
  memcpy(drawn, asks, sizeof drawn);
  if (count) asks[kept++] = (asl_ask){ASL_ROOT, below(2) ? ASL_IX : ASL_X, 0, 0, 0};
  for (uint16_t klass = 0; klass < CLASSES && kept + 1 < MOST; klass++)
    if (count && below(2)) asks[kept++] = (asl_ask){ASL_CLASS, below(3) ? ASL_IX : ASL_SIX, 0, klass, 0};
  for (size_t i = 0; i < count && kept < MOST; i++)
    if (drawn[i].kind == ASL_LEAF) asks[kept++] = drawn[i];
  if (below(2)) qsort(asks, kept, sizeof *asks, by_order);
  return kept;
}

static void acquire(void) {
  asl_ask asks[MOST];
  size_t count = draw(asks);
  uint32_t thread = below(40) ? below(THREADS) : THREADS + below(200), wanted = fault_of(thread, asks, count);
  if (wanted == ASL_OK && is_in_the_way(thread, asks, count)) wanted = ASL_IN_THE_WAY;
  granted = below(4) ? -1 : (long)below(4);
  uint32_t got = asl_forest_try_acquire(&forest, thread, asks, count);
  bool was_refused = granted == 0;
  granted = -1;
  must(got == wanted || (got == ASL_NO_MEMORY && wanted == ASL_OK && count && was_refused), "the status of a request");
  if (got == ASL_OK)
    for (size_t i = 0; i < count; i++) *held(thread, asks[i]) = asks[i].mode;
}

static void release(void) {
  uint32_t thread = below(THREADS + 1);
  must(asl_forest_release(&forest, thread) == (thread < THREADS ? ASL_OK : ASL_BAD_THREAD), "the status of a release");
  if (thread < THREADS) memset(&model[thread], 0, sizeof model[thread]);
}

static void look(void) {
  uint8_t mode = 99;
  bool covers = false, writes = below(2);
  asl_ask at = {(uint8_t)below(3), 99, (uint8_t)below(OFFSETS), (uint16_t)below(CLASSES), (uint16_t)below(OBJECTS)};
  uint32_t thread = below(THREADS);
  must(asl_forest_mode(&forest, thread, &at, &mode) == ASL_OK && mode == *held(thread, at), "a mode");
  uint8_t right = writes ? 8 : 4, all = (uint8_t)(model[thread].root | model[thread].classes[at.klass]);
  all |= model[thread].leaves[at.klass][at.object][at.offset];
  must(asl_forest_covers(&forest, thread, &at, writes, &covers) == ASL_OK && covers == ((all & right) != 0), "what is covered");
}

int main(int words, char **word) {
  must(words == 3, "usage: random MILLISECONDS SEED");
  clock_t end = clock() + (clock_t)(atol(word[1]) * (CLOCKS_PER_SEC / 1000));
  seed = 88172645463325252u + strtoull(word[2], NULL, 10);
  must(asl_forest_new(CLASSES, THREADS, &forest) == ASL_OK, "a new forest");
  uint64_t calls = 0;
  for (; clock() < end; calls++) {
    for (int i = 0; i < 100; i++) below(3) ? acquire() : release();
    for (int i = 0; i < 20; i++) look();
  }
  must(asl_forest_free(&forest) == ASL_OK, "free");
  printf("random: %llu calls\n", (unsigned long long)calls * 140);
}
