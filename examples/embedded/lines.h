/* Commands from standard input, and replies to standard output: a line of hexadecimal each. Or lines of statements. */
#include <stdbool.h>
#include <stddef.h>
#include <stdint.h>

enum { LONGEST_COMMAND = 261, LONGEST_LINE = 1001 };

/* The next command, without spaces and lines that begin with #; false at the end, and where a line isn't one. */
bool next_command(uint8_t command[LONGEST_COMMAND], size_t *count);

void print_reply(const uint8_t *reply, size_t count);

/* The next line, without its line feed; false at the end. Of one with more octets it gives LONGEST_LINE, which are too many for a statement too. */
bool next_line(uint8_t line[LONGEST_LINE], size_t *count);
