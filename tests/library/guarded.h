/* Memory for a test that looks for a byte too far, also of code that no sanitizer has marked.
 *
 * A room is what a test hands over: it has just the size that is told, at the end of its pages or at their front, beside a page that nobody
 * may touch; it can be sealed, so that it may only be read, or shut. The blocks that the library asks malloc for are counted, can be refused,
 * and may each get pages of their own, which nobody may touch once they are freed.
 * Link it with --wrap=malloc, --wrap=realloc and --wrap=free. */
#include <stdbool.h>
#include <stddef.h>
#include <stdint.h>
#include <string.h>
#include <sys/mman.h>

enum { PAGE = 4096, UNTOUCHED = 0xa5, AROUND = 512, KEPT = 4096, MOST_PAGED = 12000 };

static void must(bool holds, const char *what);

/* ---- rooms */

typedef struct room {
  uint8_t *pages; /* between two that nobody may touch */
  size_t capacity;
  uint8_t *at;
  size_t size;
} room;

static room new_room(size_t capacity) {
  size_t whole = (capacity + PAGE - 1) / PAGE * PAGE;
  uint8_t *at = (uint8_t *)mmap(NULL, whole + 2 * PAGE, PROT_NONE, MAP_PRIVATE | MAP_ANONYMOUS, -1, 0);
  must(at != MAP_FAILED && !mprotect(at + PAGE, whole, PROT_READ | PROT_WRITE), "pages for a room");
  return (room){at + PAGE, whole, at + PAGE, 0};
}

static void set_access(const room *it, int access) { must(!mprotect(it->pages, it->capacity, access), "pages"); }
static void seal(const room *it) { set_access(it, PROT_READ); }
static void shut(const room *it) { set_access(it, PROT_NONE); }

static uint8_t *front_of(const room *it) { return it->at - it->pages > AROUND ? it->at - AROUND : it->pages; }

static uint8_t *end_of(const room *it) {
  uint8_t *last = it->pages + it->capacity;
  return last - (it->at + it->size) > AROUND ? it->at + it->size + AROUND : last;
}

/* a room of so many bytes, which end where its pages end, or begin where they begin */
static void *take_room(room *it, size_t size, bool at_end) {
  must(size <= it->capacity, "a room is large enough");
  set_access(it, PROT_READ | PROT_WRITE);
  it->size = size;
  it->at = at_end ? it->pages + it->capacity - size : it->pages;
  memset(front_of(it), UNTOUCHED, (size_t)(end_of(it) - front_of(it)));
  return it->at;
}

/* whether the bytes from this one of the room on, and all around it, are as they were when it was taken */
static bool is_untouched(const room *it, size_t from) {
  for (const uint8_t *p = front_of(it); p < it->at; p++)
    if (*p != UNTOUCHED) return false;
  for (const uint8_t *p = it->at + from; p < end_of(it); p++)
    if (*p != UNTOUCHED) return false;
  return true;
}

/* ---- blocks */

void *__real_malloc(size_t size);
void __real_free(void *at);
void *__wrap_malloc(size_t size);
void *__wrap_realloc(void *at, size_t size);
void __wrap_free(void *at);

/* stands before each block; behind it there are bytes that stay */
typedef struct head {
  uint64_t mark;
  size_t size;
  size_t mapped; /* the length of its own pages; 0: it has none */
  uint8_t *from;
} head;

static const uint64_t MARK = 0x41534c626c6f636bu, FREED = 0x6672656564626c6bu;

static long granted = -1; /* so many requests of memory are granted yet; -1: all */
static bool is_paged;     /* blocks get pages of their own */
static long asked, denied, paged, live_blocks, paged_live;

static size_t rounded(size_t size, size_t to) { return (size + to - 1) / to * to; }

static size_t slack_of(const head *it) { return rounded(it->size, 16) - it->size + (it->mapped ? 0 : 16); }

static head *mapped_block(size_t size) {
  size_t length = rounded(rounded(size, 16) + sizeof(head), PAGE) + PAGE;
  uint8_t *from = (uint8_t *)mmap(NULL, length, PROT_READ | PROT_WRITE, MAP_PRIVATE | MAP_ANONYMOUS, -1, 0);
  must(from != MAP_FAILED && !mprotect(from + length - PAGE, PAGE, PROT_NONE), "pages for a block");
  head *made = (head *)(void *)(from + length - PAGE - rounded(size, 16) - sizeof(head));
  made->mapped = length;
  made->from = from;
  paged++;
  paged_live++;
  return made;
}

static head *plain_block(size_t size) {
  head *made = (head *)__real_malloc(sizeof(head) + rounded(size, 16) + 16);
  must(made != NULL, "memory for the test");
  made->mapped = 0;
  made->from = NULL;
  return made;
}

void *__wrap_malloc(size_t size) {
  asked++;
  if (granted == 0) return denied++, NULL;
  if (granted > 0) granted--;
  head *made = is_paged && paged_live < MOST_PAGED ? mapped_block(size) : plain_block(size);
  made->mark = MARK;
  made->size = size;
  live_blocks++;
  memset((uint8_t *)(made + 1) + size, UNTOUCHED, slack_of(made));
  return made + 1;
}

/* pages that were freed stay shut until so many others were */
static void drop_pages(uint8_t *from, size_t length) {
  static struct { uint8_t *from; size_t length; } kept[KEPT];
  static size_t next;
  must(!mprotect(from, length, PROT_NONE), "pages");
  if (kept[next].from) munmap(kept[next].from, kept[next].length);
  kept[next].from = from;
  kept[next].length = length;
  next = (next + 1) % KEPT;
}

void __wrap_free(void *at) {
  if (!at) return;
  head *it = (head *)at - 1;
  must(it->mark != FREED, "a block is freed once");
  must(it->mark == MARK, "what is freed is a block, and nobody has written before it");
  const uint8_t *behind = (const uint8_t *)at + it->size;
  for (size_t i = 0; i < slack_of(it); i++) must(behind[i] == UNTOUCHED, "nobody has written behind a block");
  it->mark = FREED;
  live_blocks--;
  if (!it->mapped) {
    __real_free(it);
    return;
  }
  paged_live--;
  drop_pages(it->from, it->mapped);
}

void *__wrap_realloc(void *at, size_t size) {
  void *made = __wrap_malloc(size);
  if (!made || !at) return made;
  const head *old = (const head *)at - 1;
  must(old->mark == MARK, "what grows is a block");
  memcpy(made, at, old->size < size ? old->size : size);
  __wrap_free(at);
  return made;
}
