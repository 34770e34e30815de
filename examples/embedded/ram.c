/* A card in memory: it is made, answers the commands of standard input, and is gone at the end. */
#include <stdio.h>

#include "huwapire.h"
#include "lines.h"

int main(void) {
  huwapire card = {0};
  if (huwapire_new(&card, 64) != HUWAPIRE_DONE) return 1;
  uint8_t command[LONGEST_COMMAND], reply[HUWAPIRE_LONGEST_REPLY];
  size_t length, count;
  uint32_t status = HUWAPIRE_DONE;
  while (status == HUWAPIRE_DONE && next_command(command, &length)) {
    status = huwapire_answer(&card, command, length, reply, sizeof reply, &count);
    if (status == HUWAPIRE_DONE) print_reply(reply, count);
  }
  huwapire_close(&card);
  return (int)status;
}
