#include "lines.h"

#include <ctype.h>
#include <stdio.h>

static int digit_of(int c) {
  if (c >= '0' && c <= '9') return c - '0';
  if (c >= 'A' && c <= 'F') return c - 'A' + 10;
  return -1;
}

bool next_command(uint8_t command[LONGEST_COMMAND], size_t *count) {
  char line[1024];
  do {
    if (fgets(line, sizeof line, stdin) == NULL) return false;
  } while (line[0] == '#');
  *count = 0;
  for (const char *c = line; *c != '\0';) {
    if (isspace((unsigned char)*c)) {
      c++;
      continue;
    }
    int high = digit_of((unsigned char)c[0]);
    int low = high < 0 ? -1 : digit_of((unsigned char)c[1]);
    if (low < 0 || *count == LONGEST_COMMAND) return false;
    command[(*count)++] = (uint8_t)(16 * high + low);
    c += 2;
  }
  return true;
}

bool next_line(uint8_t line[LONGEST_LINE], size_t *count) {
  int c;
  *count = 0;
  while ((c = getchar()) != EOF && c != '\n') {
    if (*count < LONGEST_LINE) line[(*count)++] = (uint8_t)c;
  }
  return c != EOF || *count > 0;
}

void print_reply(const uint8_t *reply, size_t count) {
  for (size_t i = 0; i < count; i++) printf("%02X", reply[i]);
  printf("\n");
  fflush(stdout);
}
