/* asl_call: each status of its own, buffers of each length round the output's, NULL with length 0, and memory refused at each request
 * in turn. usage: commands SOURCE. Link it with --wrap=malloc and --wrap=realloc. Run by tests/call. */
#include "asl.h"
#include "refuse.h"
#include <stdio.h>
#include <stdlib.h>
#include <string.h>

enum { ROOM = 1 << 16, UNTOUCHED = 0xa5 };

static uint8_t source[4096], whole[ROOM], cut[ROOM], said[ROOM];
static size_t length;

static void must(bool holds, const char *what) {
  if (holds) return;
  fprintf(stderr, "commands: %s\n", what);
  exit(1);
}

static bool is_untouched(const uint8_t *bytes, size_t from) {
  for (size_t i = from; i < ROOM; i++)
    if (bytes[i] != UNTOUCHED) return false;
  return true;
}

/* the answer to the words over the source; `cut` and `said` were untouched before */
static asl_answer call(const char *words, size_t output_room, size_t errors_room) {
  asl_answer answer = {99, 99, 99};
  memset(cut, UNTOUCHED, ROOM);
  memset(said, UNTOUCHED, ROOM);
  asl_call((const uint8_t *)words, strlen(words), source, length, cut, output_room, said, errors_room, &answer);
  return answer;
}

static void buffers(void) {
  asl_answer full = call("compile\n--text", ROOM, ROOM);
  must(full.status == ASL_DONE && full.output_length > 20 && full.errors_length == 0, "compile");
  must(is_untouched(cut, full.output_length) && is_untouched(said, 0), "nothing past the output");
  memcpy(whole, cut, ROOM);
  for (size_t room = 0; room <= full.output_length + 2; room++) {
    size_t filled = room < full.output_length ? room : full.output_length;
    asl_answer answer = call("compile\n--text", room, 0);
    must(answer.status == ASL_DONE && answer.output_length == full.output_length, "the same answer with less room");
    must(memcmp(cut, whole, filled) == 0 && is_untouched(cut, filled), "as much as there is room for");
  }
}

static void refused(const char *words, uint32_t status, const char *what) {
  asl_answer answer = call(words, ROOM, ROOM);
  must(answer.status == status, what);
  if (status > ASL_WRONG_USAGE)
    must(answer.output_length == 0 && answer.errors_length == 0 && is_untouched(cut, 0) && is_untouched(said, 0), "nothing is done");
  else
    must(answer.output_length == 0 && answer.errors_length > 0 && is_untouched(cut, 0), "a line on standard error alone");
}

static void statuses(void) {
  refused("dis", ASL_REFUSED, "a source is no image");
  refused("compile\n--k\n9", ASL_WRONG_USAGE, "k 9");
  refused("", ASL_WRONG_USAGE, "no words");
  refused("\n", ASL_WRONG_USAGE, "two empty words");
  refused("\xff", ASL_NOT_UTF8, "words that are not UTF-8");
  refused("compile\n\xc3", ASL_NOT_UTF8, "a letter that is cut off");
  refused("run\n--threads\n1\n--workers\n1\n--limit\n1", ASL_RUN_WAITS, "run");
  asl_answer answer;
  asl_call(NULL, 0, NULL, 0, NULL, 0, NULL, 0, &answer);
  must(answer.status == ASL_WRONG_USAGE && answer.errors_length > 0, "NULL with length 0");
  asl_call((const uint8_t *)"asm", 3, NULL, 0, NULL, 0, NULL, 0, &answer);
  must(answer.status == ASL_REFUSED && answer.errors_length > 0, "the empty input");
}

/* memory is refused at each request in turn */
static void memory(void) {
  static const uint8_t no_memory[] = "asl: OutOfMemory\n";
  long grants = 0, of_words = 0;
  for (bool done = false; !done; grants++) {
    granted = grants;
    asl_answer answer = call("compile\n--text", ROOM, ROOM);
    granted = -1;
    done = answer.status == ASL_DONE && memcmp(cut, whole, ROOM) == 0;
    if (done) break;
    must(answer.output_length == 0 && is_untouched(cut, 0), "no output without memory");
    if (answer.status == ASL_NO_ROOM_FOR_WORDS)
      of_words++, must(is_untouched(said, 0), "nothing is said");
    else
      must(answer.status == ASL_REFUSED && answer.errors_length == sizeof no_memory - 1 && memcmp(said, no_memory, sizeof no_memory - 1) == 0, "want of memory");
  }
  must(of_words > 0 && grants > of_words + 20, "memory was refused at each request");
}

int main(int words, char **word) {
  FILE *file = words == 2 ? fopen(word[1], "rb") : NULL;
  must(file, "usage: commands SOURCE");
  length = fread(source, 1, sizeof source, file);
  fclose(file);
  buffers();
  statuses();
  memory();
}
