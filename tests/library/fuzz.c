/* asl_call over words and inputs that are damaged at random. Each buffer has just the size that is told, so a sanitizer sees a byte past
 * it. Each answer must have the form that asl.h says, be the same with other room, and with memory refused at one request be that
 * answer or lack of memory.
 * usage: fuzz MILLISECONDS SEED FILE..      Link it with --wrap=malloc and --wrap=realloc. Run by tests/by-hand/fuzz-library. */
#include "asl.h"
#include "refuse.h"
#include <stdio.h>
#include <stdlib.h>
#include <string.h>
#include <time.h>

enum { FILES = 64, MOST_INPUT = 1 << 16, MOST_ROOM = 1 << 16, MOST_WORDS = 256, UNTOUCHED = 0xa5 };

typedef struct bytes {
  uint8_t *at;
  size_t length;
} bytes;

static bytes files[FILES];
static size_t file_count;
static uint64_t seed;
static long of_status[256];

static uint32_t below(uint32_t limit) {
  seed ^= seed << 13;
  seed ^= seed >> 7;
  seed ^= seed << 17;
  return (uint32_t)(seed >> 16) % limit;
}

static bytes words, input;

static void write_to(const char *path, bytes what) {
  FILE *file = fopen(path, "wb");
  if (!file) return;
  fwrite(what.at, 1, what.length, file);
  fclose(file);
}

static void must(bool holds, const char *what) {
  if (holds) return;
  fprintf(stderr, "fuzz: %s; the words and the input are in fuzz.words and fuzz.input\n", what);
  write_to("fuzz.words", words);
  write_to("fuzz.input", input);
  exit(1);
}

/* (of no bytes, it has one, so that it can be told from a failure) */
static bytes room_of(size_t length) {
  bytes made = {malloc(length ? length : 1), length};
  must(made.at, "no memory for the test");
  memset(made.at, UNTOUCHED, length);
  return made;
}

static bytes copy_of(const void *from, size_t length) {
  bytes made = room_of(length);
  if (length) memcpy(made.at, from, length);
  return made;
}

/* the words: a command with numbers at the ends of their ranges */
static const char *const COMMANDS[] = {
    "compile",        "compile\n--text",       "compile\n--k\n#",  "compile\n--text\n--k\n#", "check",        "check\n--k\n#",
    "map",            "explain",               "explain\n--all",   "explain\n--k\n#",         "diagnose",     "diagnose\n--asm",
    "diagnose\n--k\n#", "asm",                 "dis",              "step\n--threads\n#\n#\n#\n#", "replay",   "step\n--threads\n#\n--record\n#\n#",
    "log",            "log\n--trace",          "debug\nview\nasks", "debug\nstack\nobjects",  "debug\nforward\nbreak\n#\nnext\nview",
    "debug\ngoto\n#\nback\nprev\nview", "--help", "--version",     "compile\n--help",         "run\n--threads\n1\n--workers\n1\n--limit\n1"};
static const char *const NUMBERS[] = {"0", "1", "2", "3", "8", "9", "64", "128", "129", "65535", "65536", "4294967295", "4294967296", "x"};

static bytes some_words(void) {
  char text[MOST_WORDS];
  size_t length = 0;
  for (const char *c = COMMANDS[below(sizeof COMMANDS / sizeof *COMMANDS)]; *c; c++) {
    const char *piece = *c == '#' ? NUMBERS[below(below(4) ? 5 : sizeof NUMBERS / sizeof *NUMBERS)] : NULL;
    for (const char *d = piece ? piece : c; *d && length < MOST_WORDS; d++) {
      text[length++] = *d;
      if (!piece) break;
    }
  }
  for (uint32_t times = below(8) ? 0 : 1 + below(3); times > 0 && length; times--) text[below((uint32_t)length)] = (char)below(256);
  if (!below(32)) length = below((uint32_t)length + 1);
  return copy_of(text, length);
}

/* the input: a file, mostly damaged */
static bytes some_input(void) {
  static uint8_t text[MOST_INPUT];
  bytes one = files[below((uint32_t)file_count)], other = files[below((uint32_t)file_count)];
  size_t length = one.length;
  memcpy(text, one.at, length);
  for (uint32_t times = below(4); times > 0; times--) {
    size_t at = length ? below((uint32_t)length) : 0, many = 1 + below(16);
    switch (below(6)) {
    case 0: if (length) text[at] = (uint8_t)below(256); break;
    case 1: if (length) text[at] ^= (uint8_t)(1u << below(8)); break;
    case 2: length = at; break;
    case 3: if (length + many <= MOST_INPUT) memmove(text + at + many, text + at, length - at), length += many; break;
    case 4: if (at + many <= length) memmove(text + at, text + at + many, length - at - many), length -= many; break;
    default:
      if (length + 1 + other.length <= MOST_INPUT) text[length] = 0, memcpy(text + length + 1, other.at, other.length), length += 1 + other.length;
    }
  }
  return copy_of(text, length);
}

typedef struct told {
  asl_answer answer;
  bytes output, errors;
} told;

static told call(size_t output_room, size_t errors_room) {
  told made = {{99, 99, 99}, room_of(output_room), room_of(errors_room)};
  asl_call(words.length ? words.at : NULL, words.length, input.length ? input.at : NULL, input.length, output_room ? made.output.at : NULL,
           output_room, errors_room ? made.errors.at : NULL, errors_room, &made.answer);
  return made;
}

static void forget(told it) {
  free(it.output.at);
  free(it.errors.at);
}

static bool is_untouched(bytes room, size_t from) {
  for (size_t i = from; i < room.length; i++)
    if (room.at[i] != UNTOUCHED) return false;
  return true;
}

static void judge(told it) {
  uint32_t status = it.answer.status;
  size_t output = it.answer.output_length, errors = it.answer.errors_length;
  must(status <= ASL_WRONG_USAGE || (status >= ASL_NOT_UTF8 && status <= ASL_RUN_WAITS), "no such status");
  must(is_untouched(it.output, output) && is_untouched(it.errors, errors), "a byte past the answer");
  must(status == ASL_DONE || output == 0, "output beside a refusal");
  must(status == ASL_REFUSED || status == ASL_WRONG_USAGE ? errors > 0 : errors == 0, "a text on standard error with a refusal alone");
  if (status == ASL_REFUSED && errors <= it.errors.length)
    must(errors > 6 && memcmp(it.errors.at, "asl: ", 5) == 0 && it.errors.at[errors - 1] == '\n', "a refusal's line");
  of_status[status]++;
}

static size_t least(size_t a, size_t b) { return a < b ? a : b; }

/* as much of each as both have */
static void must_be_same(told one, told other) {
  must(one.answer.status == other.answer.status && one.answer.output_length == other.answer.output_length &&
           one.answer.errors_length == other.answer.errors_length, "another answer to the same call");
  must(memcmp(one.output.at, other.output.at, least(one.answer.output_length, least(one.output.length, other.output.length))) == 0, "another output");
  must(memcmp(one.errors.at, other.errors.at, least(one.answer.errors_length, least(one.errors.length, other.errors.length))) == 0, "another text");
}

/* whether this was said */
static bool says(told it, const void *text, size_t length) {
  return it.answer.errors_length == length && memcmp(it.errors.at, text, length) == 0;
}

static void refuse_memory(told ample) {
  granted = below(200);
  /* (the buffers of the test are not refused) */
  long grants = granted;
  granted = -1;
  told made = {{99, 99, 99}, room_of(MOST_ROOM), room_of(MOST_ROOM)};
  granted = grants;
  asl_call(words.at, words.length, input.at, input.length, made.output.at, MOST_ROOM, made.errors.at, MOST_ROOM, &made.answer);
  granted = -1;
  static const char no_memory[] = "asl: OutOfMemory\n";
  bool without_words = made.answer.status == ASL_NO_ROOM_FOR_WORDS;
  bool is_refused = made.answer.status == ASL_REFUSED && made.answer.output_length == 0 && says(made, no_memory, sizeof no_memory - 1);
  if (!without_words && !is_refused) must_be_same(ample, made);
  forget(made);
}

static void try_one(void) {
  words = some_words();
  input = some_input();
  told ample = call(MOST_ROOM, MOST_ROOM);
  judge(ample);
  told little = call(below((uint32_t)least(ample.answer.output_length, MOST_ROOM) + 2), below((uint32_t)least(ample.answer.errors_length, MOST_ROOM) + 2));
  must_be_same(ample, little);
  must(is_untouched(little.output, ample.answer.output_length) && is_untouched(little.errors, ample.answer.errors_length), "a byte past the answer");
  forget(little);
  if (!below(4)) refuse_memory(ample);
  forget(ample);
  free(words.at);
  free(input.at);
}

static void read_file(const char *path) {
  static uint8_t text[MOST_INPUT];
  FILE *file = fopen(path, "rb");
  must(file && file_count < FILES, path);
  files[file_count++] = copy_of(text, fread(text, 1, MOST_INPUT / 2, file));
  fclose(file);
}

int main(int count, char **word) {
  must(count > 3, "usage: fuzz MILLISECONDS SEED FILE..");
  for (int i = 3; i < count; i++) read_file(word[i]);
  seed = strtoull(word[2], NULL, 10) * 0x9e3779b97f4a7c15u + 1;
  long most = strtol(word[1], NULL, 10), calls = 0;
  for (struct timespec from, now = (timespec_get(&from, TIME_UTC), from); (now.tv_sec - from.tv_sec) * 1000 + (now.tv_nsec - from.tv_nsec) / 1000000 < most; calls++) {
    try_one();
    timespec_get(&now, TIME_UTC);
  }
  printf("fuzz: %ld calls:", calls);
  for (int i = 0; i < 256; i++)
    if (of_status[i]) printf(" %ld of status %d", of_status[i], i);
  printf("\n");
  for (size_t i = 0; i < file_count; i++) free(files[i].at);
}
