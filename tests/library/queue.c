/* Random calls on a queue against a model of it, which keeps a plain list of who waits: each status, who is named, what is held and
 * covered must be the model's. First each status once, and memory refused at each request in turn.
 * usage: queue MILLISECONDS SEED. Link it with --wrap=malloc and --wrap=realloc. Run by tests/c and tests/by-hand/fuzz-library. */
#include "asl.h"
#include "refuse.h"
#include <stdio.h>
#include <stdlib.h>
#include <string.h>
#include <time.h>

enum { CLASSES = 3, THREADS = 5, OBJECTS = 2, OFFSETS = 2, MOST = 10 };

typedef struct {
  asl_ask asks[MOST];
  size_t count;
} request;

static asl_queue queue;
static request holds[THREADS], waits[THREADS]; /* count 0: nothing */
static uint32_t line[THREADS];
static size_t waiting, room;
static uint64_t seed;

static uint32_t below(uint32_t limit) {
  seed ^= seed << 13;
  seed ^= seed >> 7;
  seed ^= seed << 17;
  return (uint32_t)(seed >> 16) % limit;
}

static void must(bool holds_so, const char *what) {
  if (holds_so) return;
  fprintf(stderr, "queue: %s\n", what);
  exit(1);
}

static bool is_mode(uint8_t code) { return code == ASL_IS || code == ASL_IX || code == ASL_S || code == ASL_SIX || code == ASL_X; }

/* ---- the model */

static bool is_same(asl_ask a, asl_ask b) {
  return a.kind == b.kind && (a.kind == ASL_ROOT || (a.klass == b.klass && (a.kind == ASL_CLASS || (a.object == b.object && a.offset == b.offset))));
}

static bool clash(uint8_t a, uint8_t b) { return (a & 2 && b & 4) || (a & 4 && b & 2) || (a & 8 && b & 1) || (a & 1 && b & 8); }

static bool clashes(const request *a, const request *b) {
  for (size_t i = 0; i < a->count; i++)
    for (size_t j = 0; j < b->count; j++)
      if (is_same(a->asks[i], b->asks[j]) && clash(a->asks[i].mode, b->asks[j].mode)) return true;
  return false;
}

static bool is_kept(uint32_t thread, const request *wanted, size_t ahead) {
  for (uint32_t other = 0; other < THREADS; other++)
    if (other != thread && clashes(&holds[other], wanted)) return true;
  for (size_t i = 0; i < ahead; i++)
    if (clashes(&waits[line[i]], wanted)) return true;
  return false;
}

static uint64_t rank(asl_ask a) {
  uint64_t klass = a.kind == ASL_ROOT ? 0 : a.klass, cell = a.kind == ASL_LEAF ? (uint64_t)a.object << 8 | a.offset : 0;
  return (uint64_t)a.kind << 60 | klass << 32 | cell;
}

static bool has_parent(const request *all, asl_ask ask) {
  uint8_t need = ask.mode == ASL_IS || ask.mode == ASL_S ? 1 : 2, kind = (uint8_t)(ask.kind - 1);
  if (ask.kind == ASL_ROOT) return true;
  for (size_t i = 0; i < all->count; i++)
    if (all->asks[i].kind == kind && (kind == ASL_ROOT || all->asks[i].klass == ask.klass)) return all->asks[i].mode & need;
  return false;
}

static bool is_waiting(uint32_t thread) {
  for (size_t i = 0; i < waiting; i++)
    if (line[i] == thread) return true;
  return false;
}

static uint32_t fault_of(uint32_t thread, const request *all) {
  size_t i;
  if (thread >= THREADS) return ASL_BAD_THREAD;
  for (i = 0; i < all->count; i++)
    if (all->asks[i].kind > ASL_LEAF) return ASL_BAD_KIND;
  for (i = 0; i < all->count; i++)
    if (all->asks[i].kind != ASL_ROOT && all->asks[i].klass >= CLASSES) return ASL_BAD_CLASS;
  for (i = 0; i < all->count; i++)
    if (!is_mode(all->asks[i].mode)) return ASL_BAD_MODE;
  for (i = 1; i < all->count; i++)
    if (rank(all->asks[i - 1]) >= rank(all->asks[i])) return ASL_NOT_RISING;
  for (i = 0; i < all->count; i++)
    if (!has_parent(all, all->asks[i])) return ASL_NO_PARENT;
  if (holds[thread].count) return ASL_HOLDS;
  return is_waiting(thread) ? ASL_WAITS : ASL_OK;
}

static void leave(uint32_t thread) {
  size_t kept = 0;
  holds[thread].count = 0;
  for (size_t i = 0; i < waiting; i++)
    if (line[i] != thread) line[kept++] = line[i];
  waiting = kept;
}

/* who goes on now, in order: how many */
static size_t serve(uint32_t *named) {
  size_t count = 0, kept = 0;
  for (size_t i = 0; i < waiting; i++) {
    uint32_t thread = line[i];
    if (is_kept(thread, &waits[thread], kept)) {
      line[kept++] = thread;
    } else {
      holds[thread] = waits[thread];
      named[count++] = thread;
    }
  }
  waiting = kept;
  return count;
}

/* ---- the calls */

static int by_rank(const void *a, const void *b) {
  uint64_t x = rank(*(const asl_ask *)a), y = rank(*(const asl_ask *)b);
  return (x > y) - (x < y);
}

/* rising, with its parents, each once in a good mode; or, one time in eight, as it falls */
static request draw(void) {
  static const uint8_t codes[] = {ASL_IS, ASL_IX, ASL_S, ASL_SIX, ASL_X, ASL_NL, 2, 255};
  request drawn = {.count = 0};
  size_t leaves = below(4);
  if (below(20)) drawn.asks[drawn.count++] = (asl_ask){ASL_ROOT, below(12) ? (below(3) ? ASL_IX : ASL_IS) : ASL_S, 0, 0, 0};
  for (uint16_t klass = 0; klass < CLASSES; klass++)
    if (below(2)) drawn.asks[drawn.count++] = (asl_ask){ASL_CLASS, codes[below(below(30) ? 5 : 8)], 0, klass, 0};
  for (size_t i = 0; i < leaves; i++)
    drawn.asks[drawn.count++] = (asl_ask){ASL_LEAF, codes[below(below(30) ? 5 : 8)], (uint8_t)below(OFFSETS), (uint16_t)below(CLASSES), (uint16_t)below(OBJECTS)};
  if (!below(8)) {
    for (size_t i = 0; i < drawn.count; i++)
      if (!below(4)) drawn.asks[i].kind = (uint8_t)below(4), drawn.asks[i].klass = (uint16_t)below(CLASSES + 1);
    return drawn;
  }
  qsort(drawn.asks, drawn.count, sizeof drawn.asks[0], by_rank);
  size_t kept = 0; /* each once, and only under what stands above it */
  for (size_t i = 0; i < drawn.count; i++) {
    request so_far = drawn;
    so_far.count = kept;
    if ((kept && is_same(drawn.asks[kept - 1], drawn.asks[i])) || !has_parent(&so_far, drawn.asks[i])) continue;
    drawn.asks[kept++] = drawn.asks[i];
  }
  drawn.count = kept;
  return drawn;
}

static void acquire(void) {
  request all = draw();
  uint32_t thread = below(40) ? below(THREADS) : THREADS + below(200), wanted = fault_of(thread, &all);
  if (wanted == ASL_OK && is_kept(thread, &all, waiting)) wanted = ASL_IN_THE_WAY;
  granted = below(4) ? -1 : 0;
  bool refuses = granted == 0;
  uint32_t got = asl_queue_acquire(&queue, thread, all.asks, all.count);
  granted = -1;
  bool fits = wanted == ASL_OK || wanted == ASL_IN_THE_WAY;
  must(got == wanted || (got == ASL_NO_MEMORY && refuses && fits && all.count > room), "the status of a request");
  if (got == ASL_OK) holds[thread] = all;
  if (got != ASL_IN_THE_WAY) return;
  waits[thread] = all;
  line[waiting++] = thread;
}

static void release(void) {
  uint32_t thread = below(THREADS + 1), named[THREADS + 1] = {77, 77, 77, 77, 77, 77}, wanted[THREADS];
  size_t count = 99, size = below(20) ? THREADS + below(2) : below(THREADS);
  uint32_t status = thread >= THREADS ? ASL_BAD_THREAD : size < THREADS ? ASL_BAD_COUNT : ASL_OK;
  granted = 0;
  must(asl_queue_release(&queue, thread, named, size, &count) == status, "the status of a release");
  granted = -1;
  if (status != ASL_OK) {
    must(count == 99 && named[0] == 77, "a refused release writes nothing");
    return;
  }
  leave(thread);
  must(count == serve(wanted), "how many are named");
  for (size_t i = 0; i < count; i++) must(named[i] == wanted[i], "who is named");
  for (size_t i = count; i <= THREADS; i++) must(named[i] == 77, "what stands behind the names");
}

static uint8_t held(uint32_t thread, asl_ask at) {
  for (size_t i = 0; i < holds[thread].count; i++)
    if (is_same(holds[thread].asks[i], at)) return holds[thread].asks[i].mode;
  return ASL_NL;
}

static void look(void) {
  uint8_t mode = 99;
  bool covers = false, writes = below(2);
  asl_ask at = {(uint8_t)below(3), 99, (uint8_t)below(OFFSETS), (uint16_t)below(CLASSES), (uint16_t)below(OBJECTS)};
  uint32_t thread = below(THREADS);
  must(asl_queue_mode(&queue, thread, &at, &mode) == ASL_OK && mode == held(thread, at), "a mode");
  uint8_t all = 0;
  for (at.kind = ASL_ROOT; at.kind <= ASL_LEAF; at.kind++) all |= held(thread, at);
  must(asl_queue_covers(&queue, thread, &at, writes, &covers) == ASL_OK && covers == ((all & (writes ? 8 : 4)) != 0), "what is covered");
}

/* ---- each status once, and memory */

static void statuses(void) {
  asl_queue none = {0};
  asl_ask root = {ASL_ROOT, ASL_X, 0, 0, 0}, leaf[] = {{ASL_ROOT, ASL_IX, 0, 0, 0}, {ASL_CLASS, ASL_IX, 0, 1, 0}, {ASL_LEAF, ASL_X, 3, 1, 500}};
  asl_ask falling[] = {leaf[0], leaf[2], leaf[1]}, twice[] = {leaf[0], leaf[0]};
  uint32_t named[3];
  size_t count = 99;
  uint8_t mode = 99;
  bool covers;
  must(asl_queue_free(&none) == ASL_BAD_HANDLE, "free of none");
  must(asl_queue_reserve(&none, 4) == ASL_BAD_HANDLE, "room of none");
  must(asl_queue_acquire(&none, 0, &root, 1) == ASL_BAD_HANDLE, "acquire of none");
  must(asl_queue_release(&none, 0, named, 3, &count) == ASL_BAD_HANDLE && count == 99, "release of none");
  must(asl_queue_mode(&none, 0, &root, &mode) == ASL_BAD_HANDLE && mode == 99, "mode of none");
  must(asl_queue_covers(&none, 0, &root, true, &covers) == ASL_BAD_HANDLE, "covers of none");
  must(asl_queue_new(2, 0, &none) == ASL_BAD_COUNT && asl_queue_new(2, 129, &none) == ASL_BAD_COUNT, "no threads, and 129");
  for (long grants = 0;; grants++) {
    granted = grants;
    uint32_t status = asl_queue_new(2, 3, &none);
    granted = -1;
    if (status == ASL_OK) break;
    must(status == ASL_NO_MEMORY && !none.live, "a new queue without memory");
  }
  must(asl_queue_new(2, 3, &none) == ASL_BAD_HANDLE, "a second queue");
  granted = 0;
  must(asl_queue_acquire(&none, 0, leaf, 3) == ASL_NO_MEMORY, "a request with no room and no memory");
  must(asl_queue_acquire(&none, 3, leaf, 3) == ASL_BAD_THREAD, "a bad thread without memory");
  must(asl_queue_reserve(&none, 3) == ASL_NO_MEMORY && asl_queue_reserve(&none, 0) == ASL_OK, "room without memory, and none");
  for (long grants = 0;; grants++) {
    granted = grants;
    uint32_t status = asl_queue_reserve(&none, 3);
    if (status == ASL_OK) break;
    must(status == ASL_NO_MEMORY, "room without memory");
  }
  granted = 0; /* from here on nothing wants memory */
  must(asl_queue_reserve(&none, 3) == ASL_OK, "as much room again");
  must(asl_queue_acquire(&none, 0, falling, 3) == ASL_NOT_RISING && asl_queue_acquire(&none, 0, twice, 2) == ASL_NOT_RISING, "what does not rise");
  must(asl_queue_acquire(&none, 0, &leaf[1], 1) == ASL_NO_PARENT, "a class without the root");
  must(asl_queue_acquire(&none, 0, NULL, 0) == ASL_OK, "the empty request");
  must(asl_queue_acquire(&none, 0, leaf, 3) == ASL_OK && asl_queue_acquire(&none, 0, leaf, 3) == ASL_HOLDS, "a leaf, twice");
  must(asl_queue_acquire(&none, 1, &root, 1) == ASL_IN_THE_WAY && asl_queue_acquire(&none, 1, &root, 1) == ASL_WAITS, "the root waits");
  must(asl_queue_acquire(&none, 2, leaf, 2) == ASL_IN_THE_WAY, "nobody passes the root");
  must(asl_queue_mode(&none, 1, &root, &mode) == ASL_OK && mode == ASL_NL, "who waits holds nothing");
  must(asl_queue_release(&none, 0, named, 2, &count) == ASL_BAD_COUNT && count == 99, "room for two of three names");
  must(asl_queue_release(&none, 0, named, 3, &count) == ASL_OK && count == 1 && named[0] == 1, "the root goes first");
  must(asl_queue_mode(&none, 1, &root, &mode) == ASL_OK && mode == ASL_X, "and holds X");
  must(asl_queue_release(&none, 1, named, 3, &count) == ASL_OK && count == 1 && named[0] == 2, "then the class");
  must(asl_queue_release(&none, 0, named, 3, &count) == ASL_OK && count == 0, "a release of nothing");
  must(asl_queue_acquire(&none, 1, &root, 1) == ASL_IN_THE_WAY && asl_queue_acquire(&none, 0, leaf, 2) == ASL_IN_THE_WAY, "two wait");
  must(asl_queue_release(&none, 1, named, 3, &count) == ASL_OK && count == 1 && named[0] == 0, "who gives up its place lets the next go on");
  granted = -1;
  must(asl_queue_free(&none) == ASL_OK && asl_queue_free(&none) == ASL_BAD_HANDLE, "free, twice");
}

int main(int words, char **word) {
  must(words == 3, "usage: queue MILLISECONDS SEED");
  clock_t end = clock() + (clock_t)(atol(word[1]) * (CLOCKS_PER_SEC / 1000));
  seed = 88172645463325252u + strtoull(word[2], NULL, 10);
  statuses();
  must(asl_queue_new(CLASSES, THREADS, &queue) == ASL_OK, "a new queue");
  uint64_t calls = 0;
  for (; clock() < end; calls++) {
    for (int i = 0; i < 100; i++) below(2) ? acquire() : release();
    for (int i = 0; i < 20; i++) look();
    if (calls == 100) must(asl_queue_reserve(&queue, room = 5) == ASL_OK, "room");
  }
  must(asl_queue_free(&queue) == ASL_OK, "free");
  printf("queue: %llu calls\n", (unsigned long long)calls * 140);
}
