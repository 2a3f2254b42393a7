/* What a compiler asks of the library: the lists of a source's sections, each with the function that it is in. It reads the source on
 * standard input, and prints a line for each section and one for each of its locks.
 *
 *   tools/library && cc -I include examples/c/lists.c out/lib/libasl.a -o lists
 *   ./lists < examples/bank.asl */
#include "asl.h"
#include <stdio.h>
#include <stdlib.h>
#include <string.h>

/* one byte more than a source may have, so that a longer one is refused; a name of 64 bytes and its end */
enum { MOST_SOURCE = (1 << 20) + 1, MOST_NAME = 65 };

/* The command's output as a text of its own, or an end with the line of its refusal: first its length is asked for, then its bytes. */
static char *ask(const char *words, const uint8_t *source, size_t length) {
  uint8_t errors[256];
  asl_answer answer;
  asl_call((const uint8_t *)words, strlen(words), source, length, NULL, 0, errors, sizeof errors, &answer);
  size_t said = answer.errors_length < sizeof errors ? answer.errors_length : sizeof errors;
  fwrite(errors, 1, said, stderr);
  char *output = answer.status == ASL_DONE ? malloc(answer.output_length + 1) : NULL;
  if (!output) exit(1);
  asl_call((const uint8_t *)words, strlen(words), source, length, (uint8_t *)output, answer.output_length, NULL, 0, &answer);
  output[answer.output_length] = '\0';
  return output;
}

/* The line after this one, or NULL. */
static const char *next_line(const char *line) {
  const char *end = strchr(line, '\n');
  return end && end[1] ? end + 1 : NULL;
}

/* Whether the map names the function of this number, and its name. */
static bool find_function(const char *map, int function, char name[MOST_NAME]) {
  for (const char *line = map; line; line = next_line(line)) {
    int number;
    if (sscanf(line, "function %d %64s", &number, name) == 2 && number == function) return true;
  }
  return false;
}

/* The line `list` of the section that comes next at or after this line. */
static const char *find_list(const char *line) {
  while (line && strncmp(line, "list\n", 5) != 0) line = next_line(line);
  return line;
}

static void print_sections(const char *map, const char *text) {
  const char *list = find_list(text);
  for (const char *line = map; line && list; line = next_line(line)) {
    int section, function, from, to;
    char name[MOST_NAME];
    if (sscanf(line, "section %d %d %d %d", &section, &function, &from, &to) != 4 || !find_function(map, function, name)) continue;
    printf("section %d of %s, bytes %d to %d\n", section, name, from, to);
    const char *lock = next_line(list);
    for (; lock && strncmp(lock, "list\n", 5) != 0; lock = next_line(lock)) printf("  %.*s\n", (int)strcspn(lock, "\n"), lock);
    list = lock;
  }
}

int main(void) {
  static uint8_t source[MOST_SOURCE];
  size_t length = fread(source, 1, sizeof source, stdin);
  char *map = ask("map", source, length), *text = ask("compile\n--text", source, length);
  print_sections(map, text);
  free(map);
  free(text);
}
