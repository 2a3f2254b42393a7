/* A bank with POSIX threads, under the locks that asl infers for the section `transfer` of examples/bank.asl.
 *
 * It reads the section's list from the text that `asl compile --text` prints, and keeps it as a runtime would: at the entry of a
 * section the list is evaluated to a request, which the forest grants as a whole, or lets wait in its queue; whoever leaves a section
 * wakes those, and only those, whom the queue names. The queue is shared under one mutex.
 *
 * It prints transfers a second: under one global mutex, and under each list, with 1, 2 and 4 threads and with sections of 1 and
 * of 50 microseconds. The sum of all accounts is checked.
 *
 * usage: bank MILLISECONDS TEXT..     how long each measurement takes, and a text for each list, as for k 0 and k 3 */
#define _POSIX_C_SOURCE 200809L
#include "asl.h"
#include <pthread.h>
#include <stdatomic.h>
#include <stdio.h>
#include <stdlib.h>
#include <string.h>
#include <time.h>

enum { ACCOUNTS = 4, REGISTERS = 2, MAX_THREADS = 4, MAX_LOCKS = 256, MAX_PATH = 8, MAX_ASKS = 3 * MAX_LOCKS, TRANSFER = 1, START = 1000 };

static void fail(const char *why) {
  fprintf(stderr, "bank: %s\n", why);
  exit(1);
}

/* ---- the list of a section, read from the program's text */

typedef struct {
  enum { ON_ROOT, ON_CLASS, ON_CELL } kind;
  bool writes;
  uint16_t klass;      /* of ON_CLASS */
  bool from_global;    /* of ON_CELL: the base is a global, else a register */
  unsigned base;
  int path[MAX_PATH];  /* -1 follows the address in the cell, another number goes so many cells on */
  unsigned operations;
} lock;

typedef struct {
  lock locks[MAX_LOCKS];
  unsigned count;
} list;

static uint16_t global_class, account_class;

static const char BLANKS[] = " \t,\r";

/* the word at the cursor, ended in place */
static char *next_word(char **cursor) {
  char *word = strtok_r(NULL, BLANKS, cursor);
  if (!word) fail("a line of a text ends too early");
  return word;
}

static lock read_lock(char *kind, char **cursor) {
  lock read = {0};
  read.kind = strcmp(kind, "root") == 0 ? ON_ROOT : strcmp(kind, "class") == 0 ? ON_CLASS : ON_CELL;
  char *word = next_word(cursor); /* for the root its effect */
  if (read.kind == ON_CLASS) read.klass = (uint16_t)atoi(word);
  if (read.kind == ON_CELL) {
    read.from_global = word[0] == 'g';
    read.base = (unsigned)atoi(word + 1);
  }
  if (read.base >= (read.from_global ? ACCOUNTS : REGISTERS)) fail("a lock of a text begins at nothing that the section has");
  if (read.kind != ON_ROOT) word = next_word(cursor);
  for (; (word[0] == '*' || word[0] == '.') && read.operations < MAX_PATH; word = next_word(cursor))
    read.path[read.operations++] = word[0] == '*' ? -1 : atoi(word + 1);
  read.writes = strcmp(word, "write") == 0;
  if (!read.writes && strcmp(word, "read") != 0) fail("a lock of a text neither reads nor writes");
  return read;
}

/* reads the classes of the globals and of the accounts, and the list of `transfer` */
static void read_program(char *text, list *transfer) {
  int section = -1;
  char *rest, *line = strtok_r(text, "\n", &rest);
  for (transfer->count = 0; line; line = strtok_r(NULL, "\n", &rest)) {
    char *cursor, *word = strtok_r(line, BLANKS, &cursor);
    if (!word) continue;
    if (strcmp(word, "global") == 0) global_class = (uint16_t)atoi(next_word(&cursor));
    if (strcmp(word, "new") == 0) {
      next_word(&cursor);
      next_word(&cursor);
      account_class = (uint16_t)atoi(next_word(&cursor));
    }
    if (strcmp(word, "list") == 0) section++;
    bool is_lock = strcmp(word, "expr") == 0 || strcmp(word, "root") == 0 || (section >= 0 && strcmp(word, "class") == 0);
    if (section != TRANSFER || !is_lock) continue;
    if (transfer->count == MAX_LOCKS) fail("a list of a text is too long");
    transfer->locks[transfer->count++] = read_lock(word, &cursor);
  }
}

/* reads a file of less than 64 KiB, and its list */
static void read_text(const char *path, list *transfer) {
  static char text[1 << 16];
  FILE *file = fopen(path, "rb");
  if (!file) fail("a text cannot be read");
  text[fread(text, 1, sizeof text - 1, file)] = 0;
  if (!feof(file)) fail("a text is too long");
  fclose(file);
  read_program(text, transfer);
  if (transfer->count == 0) fail("a text has no list for the section");
}

/* ---- the bank: objects 0 to 3 are the globals, 4 to 7 their accounts, each of one cell */

static long balance[ACCOUNTS];

typedef struct {
  bool there;
  uint16_t object;
} address;

/* the address in the cell of an object: a global's is its account's, an account has a number */
static address follow(uint16_t object) {
  return (address){object < ACCOUNTS, (uint16_t)(object + ACCOUNTS)};
}

/* the object whose cell the lock is for, where its two registers are the addresses of globals */
static address evaluate(const lock *of, const uint16_t registers[REGISTERS]) {
  address at = {true, of->from_global ? (uint16_t)of->base : registers[of->base]};
  for (unsigned i = 0; i < of->operations && at.there; i++) {
    if (of->path[i] < 0)
      at = follow(at.object);
    else
      at.there = of->path[i] == 0;
  }
  return at;
}

/* ---- requests */

typedef struct {
  asl_ask asks[MAX_ASKS];
  size_t count;
} request;

/* negative where a stands before b: the root, classes by number, leaves by class, object and offset */
static int order(const asl_ask *a, const asl_ask *b) {
  if (a->kind != b->kind) return a->kind - b->kind;
  if (a->klass != b->klass) return a->klass - b->klass;
  if (a->object != b->object) return a->object - b->object;
  return a->offset - b->offset;
}

/* asks the mode at the node too, in its place: two modes join by a bitwise or */
static void ask(request *all, asl_ask one) {
  size_t place = all->count;
  while (place > 0 && order(&one, &all->asks[place - 1]) < 0) place--;
  if (place > 0 && order(&one, &all->asks[place - 1]) == 0) {
    all->asks[place - 1].mode |= one.mode;
    return;
  }
  memmove(&all->asks[place + 1], &all->asks[place], (all->count - place) * sizeof one);
  all->asks[place] = one;
  all->count++;
}

static void ask_for(request *all, const lock *of, const uint16_t registers[REGISTERS]) {
  uint8_t mode = of->writes ? ASL_X : ASL_S, above = of->writes ? ASL_IX : ASL_IS;
  if (of->kind == ON_ROOT) {
    ask(all, (asl_ask){ASL_ROOT, mode, 0, 0, 0});
    return;
  }
  if (of->kind == ON_CLASS) {
    ask(all, (asl_ask){ASL_ROOT, above, 0, 0, 0});
    ask(all, (asl_ask){ASL_CLASS, mode, 0, of->klass, 0});
    return;
  }
  address at = evaluate(of, registers);
  if (!at.there) return;
  uint16_t klass = at.object < ACCOUNTS ? global_class : account_class;
  ask(all, (asl_ask){ASL_ROOT, above, 0, 0, 0});
  ask(all, (asl_ask){ASL_CLASS, above, 0, klass, 0});
  ask(all, (asl_ask){ASL_LEAF, mode, 0, klass, at.object});
}

/* ---- sections */

static asl_queue queue;
static pthread_mutex_t queue_lock = PTHREAD_MUTEX_INITIALIZER, global_lock = PTHREAD_MUTEX_INITIALIZER;
static struct {
  pthread_cond_t named;
  bool goes_on;
} waits[MAX_THREADS];
static list transfer_list;
static bool is_global;
static long microseconds;
static atomic_bool stops;

/* The cells that the expressions read, those of the globals, do not change here: so the request that is granted is still the
 * list's. Where they may, evaluate once more after the grant, and give back and begin again if it is another request. */
static void enter(uint32_t thread, const uint16_t registers[REGISTERS]) {
  request all = {.count = 0};
  for (unsigned i = 0; i < transfer_list.count; i++) ask_for(&all, &transfer_list.locks[i], registers);
  pthread_mutex_lock(&queue_lock);
  uint32_t status = asl_queue_acquire(&queue, thread, all.asks, all.count);
  if (status != ASL_OK && status != ASL_IN_THE_WAY) fail("a request is refused");
  waits[thread].goes_on = status == ASL_OK;
  while (!waits[thread].goes_on) pthread_cond_wait(&waits[thread].named, &queue_lock);
  pthread_mutex_unlock(&queue_lock);
}

static void leave(uint32_t thread) {
  uint32_t named[MAX_THREADS];
  size_t count;
  pthread_mutex_lock(&queue_lock);
  if (asl_queue_release(&queue, thread, named, MAX_THREADS, &count) != ASL_OK) fail("a release is refused");
  for (size_t i = 0; i < count; i++) {
    waits[named[i]].goes_on = true;
    pthread_cond_signal(&waits[named[i]].named);
  }
  pthread_mutex_unlock(&queue_lock);
}

static double seconds(void) {
  struct timespec now;
  clock_gettime(CLOCK_MONOTONIC, &now);
  return (double)now.tv_sec + (double)now.tv_nsec / 1e9;
}

static void work(void) {
  double end = seconds() + (double)microseconds / 1e6;
  while (seconds() < end) continue;
}

static void transfer(uint32_t thread, uint16_t from, uint16_t to, long amount) {
  const uint16_t registers[REGISTERS] = {from, to};
  if (is_global)
    pthread_mutex_lock(&global_lock);
  else
    enter(thread, registers);
  if (balance[from] >= amount) {
    balance[from] -= amount;
    work();
    balance[to] += amount;
  }
  if (is_global)
    pthread_mutex_unlock(&global_lock);
  else
    leave(thread);
}

typedef struct {
  uint32_t thread;
  long made;
} teller;

static void *tell(void *given) {
  teller *self = given;
  uint64_t random = 88172645463325252u + self->thread * 7919u;
  while (!atomic_load(&stops)) {
    random ^= random << 13;
    random ^= random >> 7;
    random ^= random << 17;
    uint16_t from = random % ACCOUNTS, to = (uint16_t)((from + 1 + random / 64 % (ACCOUNTS - 1)) % ACCOUNTS);
    transfer(self->thread, from, to, (long)(random >> 32) % 10);
    self->made++;
  }
  return NULL;
}

/* transfers a second by so many threads */
static double measure(int threads, long milliseconds) {
  pthread_t ids[MAX_THREADS];
  teller tellers[MAX_THREADS];
  atomic_store(&stops, false);
  double begin = seconds();
  for (int t = 0; t < threads; t++) {
    tellers[t] = (teller){(uint32_t)t, 0};
    if (pthread_create(&ids[t], NULL, tell, &tellers[t])) fail("a thread does not start");
  }
  struct timespec pause = {milliseconds / 1000, milliseconds % 1000 * 1000000};
  nanosleep(&pause, NULL);
  atomic_store(&stops, true);
  long made = 0, sum = 0;
  for (int t = 0; t < threads; t++) {
    pthread_join(ids[t], NULL);
    made += tellers[t].made;
  }
  for (int a = 0; a < ACCOUNTS; a++) sum += balance[a];
  if (sum != (long)ACCOUNTS * START) fail("money was made or lost");
  return (double)made / (seconds() - begin);
}

/* a row of the table: one global mutex where there is no text, else its list */
static void row(const char *text, long milliseconds) {
  is_global = !text;
  if (text) read_text(text, &transfer_list);
  printf("%-20s", text ? text : "global lock");
  for (int threads = 1; threads <= MAX_THREADS; threads *= 2) printf(" %12.0f", measure(threads, milliseconds));
  printf("\n");
}

int main(int words, char **word) {
  if (words < 3) fail("usage: bank MILLISECONDS TEXT..");
  for (int a = 0; a < ACCOUNTS; a++) balance[a] = START;
  for (int t = 0; t < MAX_THREADS; t++) pthread_cond_init(&waits[t].named, NULL);
  if (asl_queue_new(1024, MAX_THREADS, &queue) != ASL_OK) fail("no queue");
  if (asl_queue_reserve(&queue, MAX_ASKS) != ASL_OK) fail("no room for requests");
  for (microseconds = 1; microseconds <= 50; microseconds += 49) {
    printf("transfers a second, sections of %ld us, threads: %6d %12d %12d\n", microseconds, 1, 2, 4);
    row(NULL, atol(word[1]));
    for (int text = 2; text < words; text++) row(word[text], atol(word[1]));
  }
  asl_queue_free(&queue);
  printf("the sum is kept\n");
}
