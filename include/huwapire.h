/* The card of Huwapire as a library for C. docs/EMBEDDING.md says how it is used, and what is proved of it. */
#ifndef HUWAPIRE_H
#define HUWAPIRE_H
#include <stdbool.h>
#include <stddef.h>
#include <stdint.h>
/* What holds a card, or nothing while its octets are 00, as they have to be at first. It is never copied, and used by one call at a time.
   No pointer is NULL, also where its length is 0; and what a call is lent doesn't overlap. */
typedef struct { void *at; bool is_full; } huwapire;
/* How a call ended. But for HUWAPIRE_DONE, and for HUWAPIRE_NO_MEMORY of an answer or a line, it left all as it was. */
enum {
  HUWAPIRE_DONE = 0, HUWAPIRE_WRONG_HANDLE = 1, /* it holds no card, or for a new one it holds one already */
  HUWAPIRE_TOO_SHORT = 2,    /* what was lent is too short */
  HUWAPIRE_NO_MEMORY = 3, HUWAPIRE_NOT_A_CARD = 4,
  HUWAPIRE_WRONG_CELLS = 5,  /* a card has 16 to 2,048 cells */
  HUWAPIRE_MUTE = 6,         /* memory was wanting within a command before: close it, and open its image again */
  HUWAPIRE_NO_WRITE = 7, HUWAPIRE_NO_TERMINAL = 8, /* the log has no such write; the card was given no terminal */
};
#define HUWAPIRE_LONGEST_REPLY 258 /* for how many octets an answer wants room */
uint32_t huwapire_new(huwapire *card, uint16_t cells);                       /* a new card, whose image is the host's to keep */
uint32_t huwapire_open(huwapire *card, const uint8_t *image, size_t length); /* the card of an image */
uint32_t huwapire_answer(huwapire *card, const uint8_t *command, size_t length, uint8_t *reply, size_t room, size_t *count);
uint32_t huwapire_reset(huwapire *card);                                     /* ends all sessions */
/* A terminal resets the card, with room for a line's text; more is taken for a longer one. A line is carried out as `card_cli FILE term` does, and its
   text is there, each of its lines ended by a line feed, until the next answer, reset, terminal or line. */
uint32_t huwapire_terminal(huwapire *card, size_t room);
uint32_t huwapire_line(huwapire *card, const uint8_t *line, size_t length);
uint32_t huwapire_text_size(huwapire *card, size_t *length);
uint32_t huwapire_text(huwapire *card, uint8_t *text, size_t room, size_t *count);
/* The writes of the last of these calls. A host with an EEPROM of its own makes them, in order, before it sends the reply or shows the text. */
uint32_t huwapire_writes(huwapire *card, size_t *count);
uint32_t huwapire_write(huwapire *card, size_t number, size_t *at, uint8_t *octets, size_t room, size_t *count);
uint32_t huwapire_size(huwapire *card, size_t *length);
uint32_t huwapire_image(huwapire *card, uint8_t *image, size_t length);      /* as many octets as the size */
void huwapire_close(huwapire *card);                                         /* lets go of the card, if there is one */
/* What the library asks of the host: memory. `examples/embedded/heap.c` has them over malloc. */
typedef struct { bool is_there; void *at; } huwapire_memory;
huwapire_memory rattle_alloc(size_t size, size_t align), rattle_realloc(void *at, size_t kept, size_t size, size_t align);
void rattle_dealloc(void *at);
#endif
