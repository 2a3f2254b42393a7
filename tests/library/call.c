/* One command by the C library, as the program would do it: the words are the arguments, input is standard input, and the output,
 * the errors and the status are the program's. usage: call WORD.. < INPUT
 * Run by tests/three-ways and tests/release. */
#include "asl.h"
#include <stdio.h>
#include <stdlib.h>
#include <string.h>

enum { MOST = 1 << 24 };

static size_t join(char *to, int count, char **words) {
  size_t length = 0;
  for (int i = 0; i < count; i++) {
    if (i) to[length++] = '\n';
    length += (size_t)sprintf(to + length, "%s", words[i]);
  }
  return length;
}

int main(int count, char **words) {
  static uint8_t input[MOST], output[MOST], errors[1 << 16];
  static char joined[1 << 20];
  size_t words_length = join(joined, count - 1, words + 1);
  size_t length = fread(input, 1, sizeof input, stdin);
  asl_answer answer;
  asl_call((const uint8_t *)joined, words_length, input, length, output, sizeof output, errors, sizeof errors, &answer);
  if (answer.status > ASL_WRONG_USAGE || answer.output_length > sizeof output || answer.errors_length > sizeof errors) return 99;
  fwrite(output, 1, answer.output_length, stdout);
  fwrite(errors, 1, answer.errors_length, stderr);
  return (int)answer.status;
}
