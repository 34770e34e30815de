/* A card that is asked in statements: the lines of standard input are carried out, and their text is printed. The host keeps the lasting image itself:
   before a text is shown, each write of its line is made there, in order. At the end the card is opened from that image, as behind a loss of power. */
#include <stdio.h>

#include "huwapire.h"
#include "lines.h"

enum { CELLS = 64, IMAGE = 70 * CELLS + 34, ROOM = 4096, FAULT = 100 };

static uint8_t lasting[IMAGE], octets[IMAGE], text[65536];

/* Makes the writes of the last call. */
static bool make_writes(huwapire *card) {
  size_t writes, at, count;
  if (huwapire_writes(card, &writes) != HUWAPIRE_DONE) return false;
  for (size_t number = 0; number < writes; number++) {
    if (huwapire_write(card, number, &at, octets, sizeof octets, &count) != HUWAPIRE_DONE) return false;
    for (size_t i = 0; i < count; i++) lasting[at + i] = octets[i];
  }
  return true;
}

static uint32_t carry_out(huwapire *card, const uint8_t *line, size_t length) {
  size_t count;
  uint32_t status = huwapire_line(card, line, length);
  if (status != HUWAPIRE_DONE) return status;
  if (!make_writes(card)) return FAULT;
  status = huwapire_text(card, text, sizeof text, &count);
  if (status == HUWAPIRE_DONE) fwrite(text, 1, count, stdout);
  return status;
}

int main(void) {
  huwapire card = {0};
  uint8_t line[LONGEST_LINE];
  size_t length;
  uint32_t status = huwapire_new(&card, CELLS);
  if (status == HUWAPIRE_DONE) status = huwapire_image(&card, lasting, sizeof lasting);
  if (status == HUWAPIRE_DONE) status = huwapire_terminal(&card, ROOM);
  while (status == HUWAPIRE_DONE && next_line(line, &length)) status = carry_out(&card, line, length);
  huwapire_close(&card);
  if (status == HUWAPIRE_DONE) status = huwapire_open(&card, lasting, sizeof lasting);
  huwapire_close(&card);
  return (int)status;
}
