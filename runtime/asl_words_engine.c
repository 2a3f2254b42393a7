/* Sections under an atomic word for each node, without the lock forest and without a guard. TESTED, NOT PROVED: who wants the proved
 * lock forest under his sections takes the engine `forest`.
 *
 * A request's nodes are taken one after the other, in one order for all threads, so nobody waits in a circle. The moment at which the last is
 * taken is that of the grant. Meanwhile others may have stored to the cells that the list reads: so where it reads any it is evaluated once
 * more, and if it asks for something else now, all is given back and the thread begins again. If it asks for the same, it will go on doing so,
 * since the cells that its expressions read are locked.
 *
 * It releases and acquires, and no more: that is enough here (docs/RACES.md, "What it is for"). All that a section holds is taken before its first
 * access and given back after its last. A word is changed by read-modify-write alone, so who takes it in a mode that clashes synchronizes with all
 * who gave it back before. So of accesses in conflict one happens before the other; each load sees the last store before it; and sections in an
 * order that goes with `happens before` do the same one after the other. An evaluation that reads while others store asks for words, and no more.
 *
 * A word counts the threads that hold a mode with the 1, the 2, the 4 and the 8 (docs/LOCKS.md), and those that wait to write what is below, all of it
 * or a part: once one waits, nobody comes in but others who write there, so readers do not keep a writer out. Who gives back wakes those who can come in
 * now, of those who write all one; so does the last one who waited to write a part, as it comes in. Leaves share words by a hash, which costs waiting. A
 * node at which no two requests can clash has no word: the root where no list names it, a class that no list names. */
#define _POSIX_C_SOURCE 200809L
#include "inside.h"
#include <stdlib.h>
#include <string.h>

enum { LEAF_WORDS = 1 << 12, BUCKETS = 64 };

typedef struct {
  _Alignas(64) _Atomic uint64_t word;
} node;

/* a thread that sleeps until a word has none of some bits */
typedef struct sleeper {
  struct sleeper *next;
  uint64_t at, clash;
  bool sleeps;
  pthread_cond_t wake;
} sleeper;

/* where those sleep who wait for one of many words, a list */
typedef struct {
  _Alignas(64) pthread_mutex_t mutex;
  sleeper *first, **end;
} bucket;

typedef struct {
  node *nodes; /* the root, the classes, the leaves */
  bool root_is_named, *class_is_named;
  atomic_uint busy; /* threads that hold or wait */
  uint32_t bucket_count;
  bucket buckets[BUCKETS];
} words_engine;

typedef struct {
  request held, again;
  bool is_in;
  sleeper asleep;
} words_thread;

static inline words_engine *of_runtime(const aslr_runtime *runtime) { return runtime->engine_at; }

/* ---- words: three counts of 16 bits, a bit for the 8, which one thread has at most, 14 bits for the writers that wait, a bit for sleepers */

#define ONE_WITH(bit) (UINT64_C(1) << 16 * (bit))
#define ALL_WITH(bit) (UINT64_C(0xffff) << 16 * (bit))
static const uint64_t WRITER = UINT64_C(1) << 48;
static const uint64_t ONE_WAITS = UINT64_C(1) << 49, ALL_WAIT = UINT64_C(0x3fff) << 49;
static const uint64_t SLEEPER = UINT64_C(1) << 63;

static inline uint64_t what_is_added(uint8_t mode) {
  return (mode & 1 ? ONE_WITH(0) : 0) + (mode & 2 ? ONE_WITH(1) : 0) + (mode & 4 ? ONE_WITH(2) : 0) + (mode & 8 ? WRITER : 0);
}

static inline uint64_t what_clashes(uint8_t mode) {
  return (mode & 1 ? WRITER : 0) | (mode & 2 ? ALL_WITH(2) : 0) | (mode & 4 ? ALL_WITH(1) : 0) | (mode & 8 ? ALL_WITH(0) : 0);
}

/* ---- what a list asks for now */

static inline uint64_t class_node(uint16_t klass) { return 1u + (uint64_t)klass; }

static inline uint64_t leaf_node(const aslr_runtime *runtime, aslr_value at) {
  const aslr_object *object = aslr_object_of(at);
  uint32_t hash = (object->number * 2654435761u) ^ (aslr_offset_of(at) * 40503u) ^ (object->klass * 97u);
  return 1u + runtime->program->classes + (hash ^ hash >> 15) % LEAF_WORDS;
}

static void ask_lock(const aslr_runtime *runtime, const aslr_lock *lock, const aslr_value *registers, request *all) {
  const words_engine *engine = of_runtime(runtime);
  uint8_t above = lock->mode == ASL_X ? ASL_IX : ASL_IS;
  aslr_value at;
  if (lock->kind == ASL_ROOT) {
    ask_above(all, 0, 0, lock->mode);
  } else if (lock->kind == ASL_CLASS) {
    if (engine->root_is_named) ask_above(all, 0, 0, above);
    ask(all, class_node(lock->at), lock->mode);
  } else if (locate(runtime, lock, registers, NULL, NULL, &at) == A_CELL) {
    uint16_t klass = aslr_object_of(at)->klass;
    if (engine->root_is_named) ask_above(all, 0, 0, above);
    if (engine->class_is_named[klass]) ask(all, class_node(klass), above);
    ask(all, leaf_node(runtime, at), lock->mode);
  }
}

static void evaluate(const aslr_runtime *runtime, const list *of, const aslr_value *registers, request *all) {
  all->count = 0;
  for (uint32_t i = 0; i < of->count; i++) ask_lock(runtime, &of->locks[i], registers, all);
}

/* ---- one word */

/* Behind all others, or before them where it has been woken once. */
static void lie_down(bucket *b, sleeper *my, bool again) {
  sleeper **place = again ? &b->first : b->end;
  my->next = *place;
  *place = my;
  if (!my->next) b->end = &my->next;
  my->sleeps = true;
}

static void wake(bucket *b, sleeper **place) {
  sleeper *woken = *place;
  *place = woken->next;
  if (!woken->next) b->end = place;
  woken->sleeps = false;
  pthread_cond_signal(&woken->wake);
}

/* Until the word has none of the bits that clash. While somebody sleeps for a word it says so: who gives back then looks who can come in. */
static void sleep_for(words_engine *engine, sleeper *my) {
  bucket *b = &engine->buckets[my->at % BUCKETS];
  _Atomic uint64_t *word = &engine->nodes[my->at].word;
  bool again = false;
  pthread_mutex_lock(&b->mutex);
  uint64_t w = atomic_load_explicit(word, memory_order_relaxed);
  while (w & my->clash) {
    if (!(w & SLEEPER) && !atomic_compare_exchange_weak_explicit(word, &w, w | SLEEPER, memory_order_relaxed, memory_order_relaxed)) continue;
    lie_down(b, my, again);
    while (my->sleeps) sleep_on(&my->wake, &b->mutex);
    again = true;
    w = atomic_load_explicit(word, memory_order_relaxed);
  }
  pthread_mutex_unlock(&b->mutex);
}

/* Wakes those for whom the word is free now. Of those who write one: the others would sleep again. */
static void wake_sleepers(words_engine *engine, uint64_t at) {
  bucket *b = &engine->buckets[at % BUCKETS];
  _Atomic uint64_t *word = &engine->nodes[at].word;
  bool writes = false, some_stay = false;
  pthread_mutex_lock(&b->mutex);
  uint64_t w = atomic_load_explicit(word, memory_order_relaxed);
  for (sleeper **place = &b->first; *place && !(writes && some_stay);) {
    sleeper *one = *place;
    bool stays = one->at == at && (writes || (w & one->clash));
    some_stay = some_stay || stays;
    if (stays || one->at != at) {
      place = &one->next;
    } else {
      writes = one->clash & ALL_WITH(0);
      wake(b, place);
    }
  }
  if (!some_stay) atomic_fetch_and_explicit(word, ~SLEEPER, memory_order_relaxed);
  pthread_mutex_unlock(&b->mutex);
}

/* Looks for a moment, then sleeps, until the word has none of these bits. */
static void wait_for(mine *self, uint64_t at, uint64_t clash) {
  words_engine *engine = of_runtime(self->thread.runtime);
  bool crowded = atomic_load_explicit(&engine->busy, memory_order_relaxed) > self->thread.runtime->processors;
  const _Atomic uint64_t *word = &engine->nodes[at].word;
  spin s = spin_for(crowded ? 1 : self->thread.runtime->spin_ns);
  do {
    if (!(atomic_load_explicit(word, memory_order_relaxed) & clash)) return;
  } while (spins(&s));
  self->thread.counts.sleeps++;
  words_thread *my = self->at;
  my->asleep.at = at;
  my->asleep.clash = clash;
  sleep_for(engine, &my->asleep);
}

/* Who wants to write below and is kept out says so once in the word, and no longer waits for others who have said so. When the last of them is in,
 * those can come in who waited for that alone; where he writes all, nobody can. */
static void take(mine *self, uint64_t at, uint8_t mode) {
  words_engine *engine = of_runtime(self->thread.runtime);
  _Atomic uint64_t *word = &engine->nodes[at].word;
  const uint64_t held = what_clashes(mode);
  uint64_t clash = held | (mode & 8 ? 0 : ALL_WAIT);
  uint64_t added = what_is_added(mode);
  bool waited = false, told = false;
  uint64_t w = atomic_load_explicit(word, memory_order_relaxed);
  for (;;) {
    if (!(w & clash)) {
      if (!atomic_compare_exchange_weak_explicit(word, &w, w + added, memory_order_acquire, memory_order_relaxed)) continue;
      if (told && !(mode & 8) && w & SLEEPER && !((w + added) & ALL_WAIT)) wake_sleepers(engine, at);
      return;
    }
    if (!waited) self->thread.counts.refusals++;
    waited = true;
    if (mode & 2 && !told && w & held) {
      told = true;
      atomic_fetch_add_explicit(word, ONE_WAITS, memory_order_relaxed);
      added -= ONE_WAITS;
      clash = held;
    }
    wait_for(self, at, clash);
    w = atomic_load_explicit(word, memory_order_relaxed);
  }
}

static void give_back(words_engine *engine, const request *held) {
  for (size_t i = held->count; i-- > 0;) {
    uint64_t at = node_of(held->wants[i]);
    _Atomic uint64_t *word = &engine->nodes[at].word;
    if (atomic_fetch_sub_explicit(word, what_is_added(mode_of(held->wants[i])), memory_order_release) & SLEEPER) wake_sleepers(engine, at);
  }
}

/* ---- the engine */

static void take_all(mine *self, const request *all) {
  for (size_t i = 0; i < all->count; i++) take(self, node_of(all->wants[i]), mode_of(all->wants[i]));
}

static uint32_t acquire(mine *self, const list *of, const aslr_value *registers) {
  const aslr_runtime *runtime = self->thread.runtime;
  words_engine *engine = of_runtime(runtime);
  words_thread *my = self->at;
  atomic_fetch_add_explicit(&engine->busy, 1, memory_order_relaxed);
  my->is_in = true;
  evaluate(runtime, of, registers, &my->held);
  for (;;) {
    take_all(self, &my->held);
#ifdef ASLR_TEST_ONE_EVALUATION /* for a test, which must then fail */
    return ASLR_OK;
#endif
    if (!of->follows) return ASLR_OK;
    self->thread.counts.again++;
    evaluate(runtime, of, registers, &my->again);
    if (same_request(&my->held, &my->again)) return ASLR_OK;
    give_back(engine, &my->held);
    request other = my->again;
    my->again = my->held;
    my->held = other;
  }
}

static void release(mine *self) {
  words_engine *engine = of_runtime(self->thread.runtime);
  words_thread *my = self->at;
  if (!my->is_in) return;
  give_back(engine, &my->held);
  my->held.count = 0;
  my->is_in = false;
  atomic_fetch_sub_explicit(&engine->busy, 1, memory_order_relaxed);
}

static bool has(const request *held, uint64_t node, uint8_t mode) {
  for (size_t i = 0; i < held->count; i++)
    if (node_of(held->wants[i]) == node && mode_of(held->wants[i]) & mode) return true;
  return false;
}

static bool covers(mine *self, aslr_value at, bool writes) {
  const words_thread *my = self->at;
  uint8_t mode = writes ? 8 : 4;
  return has(&my->held, 0, mode) || has(&my->held, class_node(aslr_object_of(at)->klass), mode) ||
         has(&my->held, leaf_node(self->thread.runtime, at), mode);
}

static uint32_t thread_open(mine *self) {
  words_thread *my = self->at;
  size_t room = self->thread.runtime->longest + 1;
  my->held.wants = calloc(room, sizeof(want));
  my->again.wants = calloc(room, sizeof(want));
  if (my->held.wants && my->again.wants && pthread_cond_init(&my->asleep.wake, NULL) == 0) return ASLR_OK;
  free(my->held.wants);
  free(my->again.wants);
  return ASLR_NO_MEMORY;
}

static void thread_close(mine *self) {
  words_thread *my = self->at;
  pthread_cond_destroy(&my->asleep.wake);
  free(my->held.wants);
  free(my->again.wants);
}

static void close_engine(aslr_runtime *runtime) {
  words_engine *engine = of_runtime(runtime);
  for (uint32_t b = 0; b < engine->bucket_count; b++) pthread_mutex_destroy(&engine->buckets[b].mutex);
  free(engine->class_is_named);
  free(engine->nodes);
  free(engine);
  runtime->engine_at = NULL;
}

static void read_names(words_engine *engine, const aslr_runtime *runtime) {
  for (uint32_t l = 0; l < runtime->list_count; l++)
    for (uint32_t i = 0; i < runtime->lists[l].count; i++) {
      const aslr_lock *lock = &runtime->lists[l].locks[i];
      if (lock->kind == ASL_ROOT) engine->root_is_named = true;
      if (lock->kind == ASL_CLASS) engine->class_is_named[lock->at] = true;
    }
}

static bool make_buckets(words_engine *engine) {
  for (; engine->bucket_count < BUCKETS; engine->bucket_count++) {
    bucket *b = &engine->buckets[engine->bucket_count];
    b->end = &b->first;
    if (pthread_mutex_init(&b->mutex, NULL)) return false;
  }
  return true;
}

static uint32_t open_engine(aslr_runtime *runtime, const aslr_options *options) {
  (void)options;
  words_engine *engine = aligned_alloc(64, (sizeof *engine + 63) & ~(size_t)63);
  if (!engine) return ASLR_NO_MEMORY;
  memset(engine, 0, sizeof *engine);
  runtime->engine_at = engine;
  size_t count = 1u + runtime->program->classes + LEAF_WORDS;
  engine->nodes = aligned_alloc(64, count * sizeof *engine->nodes);
  engine->class_is_named = calloc(runtime->program->classes + 1u, sizeof *engine->class_is_named);
  if (!engine->nodes || !engine->class_is_named || !make_buckets(engine)) return ASLR_NO_MEMORY;
  for (size_t i = 0; i < count; i++) atomic_init(&engine->nodes[i].word, 0);
  read_names(engine, runtime);
  return ASLR_OK;
}

const engine aslr_words_engine = {open_engine, close_engine, sizeof(words_thread), thread_open, thread_close, acquire, release, covers};
