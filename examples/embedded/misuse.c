/* What a wrong use is answered: each call with a handle that is empty or full, with too little room, with octets that are none of a card or a
   command, with lines and commands by turns, and with memory that ends at any request. It says nothing where all is as it has to be, and else which line wasn't. */
#include <stdio.h>
#include <stdlib.h>
#include <string.h>

#include "heap.h"
#include "huwapire.h"

#define EXPECT(what)                            \
  do {                                          \
    if (!(what)) {                              \
      printf("line %d: %s\n", __LINE__, #what); \
      exit(1);                                  \
    }                                           \
  } while (0)

static const uint8_t present_owner[] = {0x00, 0x14, 0x00, 0x80, 0x06, 0x05, 'O', 'W', 'N', 'E', 'R'};
static const uint8_t create_table[] = {0x00, 0x10, 0x00, 0x80};
static const uint8_t create_user[] = {0x00, 0x14, 0x00, 0x81, 0x07, 0x03, 'A', 'N', 'N', 0x01, 0x03, 0x00};

static const uint8_t begin[] = {0x00, 0x12, 0x00, 0x80};

static uint8_t reply[HUWAPIRE_LONGEST_REPLY], octets[2048], none[1];
static size_t count, at;

static void empty_handle(huwapire *card) {
  EXPECT(huwapire_answer(card, present_owner, sizeof present_owner, reply, sizeof reply, &count) == HUWAPIRE_WRONG_HANDLE);
  EXPECT(huwapire_reset(card) == HUWAPIRE_WRONG_HANDLE);
  EXPECT(huwapire_writes(card, &count) == HUWAPIRE_WRONG_HANDLE);
  EXPECT(huwapire_write(card, 0, &at, octets, sizeof octets, &count) == HUWAPIRE_WRONG_HANDLE);
  EXPECT(huwapire_terminal(card, 64) == HUWAPIRE_WRONG_HANDLE);
  EXPECT(huwapire_line(card, octets, 0) == HUWAPIRE_WRONG_HANDLE);
  EXPECT(huwapire_text_size(card, &count) == HUWAPIRE_WRONG_HANDLE);
  EXPECT(huwapire_text(card, octets, sizeof octets, &count) == HUWAPIRE_WRONG_HANDLE);
  EXPECT(huwapire_size(card, &count) == HUWAPIRE_WRONG_HANDLE);
  EXPECT(huwapire_image(card, octets, sizeof octets) == HUWAPIRE_WRONG_HANDLE);
  EXPECT(huwapire_open(card, octets, sizeof octets) == HUWAPIRE_NOT_A_CARD);
  EXPECT(huwapire_open(card, none, 0) == HUWAPIRE_NOT_A_CARD);
  EXPECT(huwapire_new(card, 15) == HUWAPIRE_WRONG_CELLS);
  EXPECT(huwapire_new(card, 2049) == HUWAPIRE_WRONG_CELLS);
  huwapire_close(card);
}

static void answers(huwapire *card, const uint8_t *command, size_t length, uint32_t word) {
  EXPECT(huwapire_answer(card, command, length, reply, sizeof reply, &count) == HUWAPIRE_DONE);
  EXPECT(count >= 2 && (uint32_t)(256 * reply[count - 2] + reply[count - 1]) == word);
}

static void full_handle(huwapire *card) {
  EXPECT(huwapire_new(card, 16) == HUWAPIRE_DONE);
  EXPECT(huwapire_new(card, 16) == HUWAPIRE_WRONG_HANDLE);
  EXPECT(huwapire_open(card, octets, sizeof octets) == HUWAPIRE_WRONG_HANDLE);
  EXPECT(huwapire_size(card, &count) == HUWAPIRE_DONE && count == 1154);
  EXPECT(huwapire_image(card, octets, 1153) == HUWAPIRE_TOO_SHORT);
  EXPECT(huwapire_image(card, octets, 1155) == HUWAPIRE_TOO_SHORT);
  EXPECT(huwapire_answer(card, present_owner, sizeof present_owner, reply, 257, &count) == HUWAPIRE_TOO_SHORT);
  answers(card, none, 0, 0x6700);
  answers(card, octets, sizeof octets, 0x6D00);
  /* the head of CREATE TABLE, and no data of it behind */
  memcpy(octets, create_table, sizeof create_table);
  answers(card, octets, sizeof octets, 0x6700);
  answers(card, present_owner, sizeof present_owner, 0x9000);
  EXPECT(huwapire_writes(card, &count) == HUWAPIRE_DONE && count == 0);
  answers(card, create_user, sizeof create_user, 0x9000);
  EXPECT(huwapire_writes(card, &count) == HUWAPIRE_DONE && count > 0);
  size_t writes = count;
  EXPECT(huwapire_write(card, writes, &at, octets, sizeof octets, &count) == HUWAPIRE_NO_WRITE);
  EXPECT(huwapire_write(card, SIZE_MAX, &at, octets, sizeof octets, &count) == HUWAPIRE_NO_WRITE);
  EXPECT(huwapire_write(card, 0, &at, none, 0, &count) == HUWAPIRE_TOO_SHORT);
  EXPECT(huwapire_reset(card) == HUWAPIRE_DONE);
  EXPECT(huwapire_writes(card, &count) == HUWAPIRE_DONE && count == 0);
  huwapire_close(card);
}

static uint32_t carried_out(huwapire *card, const char *line) { return huwapire_line(card, (const uint8_t *)line, strlen(line)); }

/* A line has this text. */
static void says(huwapire *card, const char *line, const char *text) {
  EXPECT(carried_out(card, line) == HUWAPIRE_DONE);
  EXPECT(huwapire_text_size(card, &count) == HUWAPIRE_DONE && count == strlen(text));
  EXPECT(count == 0 || huwapire_text(card, octets, count - 1, &count) == HUWAPIRE_TOO_SHORT);
  EXPECT(huwapire_text(card, octets, sizeof octets, &count) == HUWAPIRE_DONE && count == strlen(text) && memcmp(octets, text, count) == 0);
}

/* Lines, and commands between them. */
static void lines_and_commands(huwapire *card) {
  EXPECT(huwapire_new(card, 64) == HUWAPIRE_DONE);
  EXPECT(huwapire_line(card, octets, 0) == HUWAPIRE_NO_TERMINAL);
  EXPECT(huwapire_text_size(card, &count) == HUWAPIRE_DONE && count == 0);
  EXPECT(huwapire_terminal(card, SIZE_MAX) == HUWAPIRE_NO_MEMORY);
  EXPECT(huwapire_terminal(card, 0) == HUWAPIRE_DONE);
  says(card, "PRESENT OWNER", "ok\n");
  says(card, "CREATE TABLE PETS (NAME)", "ok\n");
  says(card, "", "");
  says(card, "SELECT", "error at 6\n");
  /* A command begins a transaction, and the terminal knows: an UPDATE doesn't begin its own, and both changes are undone together. */
  answers(card, begin, sizeof begin, 0x9000);
  EXPECT(huwapire_text_size(card, &count) == HUWAPIRE_DONE && count == 0);
  says(card, "INSERT INTO PETS VALUES ('TOM')", "ok\n");
  says(card, "UPDATE PETS SET NAME = 'REX'", "rows 1\n");
  says(card, "ROLLBACK", "ok\n");
  says(card, "SELECT * FROM PETS", "rows 0\n");
  says(card, "INSERT INTO PETS VALUES ('REX')", "ok\n");
  EXPECT(huwapire_writes(card, &count) == HUWAPIRE_DONE && count > 0);
  says(card, "SELECT * FROM PETS", "'REX'\nrows 1\n");
  EXPECT(huwapire_writes(card, &count) == HUWAPIRE_DONE && count == 0);
  /* A reset ends the session, and the terminal knows. */
  answers(card, begin, sizeof begin, 0x9000);
  EXPECT(huwapire_reset(card) == HUWAPIRE_DONE);
  says(card, "PRESENT OWNER", "ok\n");
  says(card, "UPDATE PETS SET NAME = 'MAX'", "rows 1\n");
  EXPECT(huwapire_writes(card, &count) == HUWAPIRE_DONE && count > 0);
  /* A second terminal: the session is ended. */
  EXPECT(huwapire_terminal(card, 16) == HUWAPIRE_DONE);
  says(card, "SELECT * FROM PETS", "refused 6A88\n");
  /* Where there is no memory for the text, the line is carried out all the same. */
  EXPECT(huwapire_terminal(card, 0) == HUWAPIRE_DONE);
  answers(card, present_owner, sizeof present_owner, 0x9000);
  heap_refuses_from = 0;
  EXPECT(carried_out(card, "INSERT INTO PETS VALUES ('TOM')") == HUWAPIRE_NO_MEMORY);
  heap_refuses_from = SIZE_MAX;
  EXPECT(huwapire_writes(card, &count) == HUWAPIRE_DONE && count > 0);
  says(card, "SELECT * FROM PETS", "'MAX'\n'TOM'\nrows 2\n");
  huwapire_close(card);
  EXPECT(heap_now == 0);
}

/* Memory ends at each request of a new card, of one that is opened, and of a command. */
static void memory_ends(huwapire *card) {
  uint8_t image[1154];
  uint32_t status;
  size_t request = 0;
  do {
    heap_refuses_from = request++;
    status = huwapire_new(card, 16);
    EXPECT(status == HUWAPIRE_DONE || status == HUWAPIRE_NO_MEMORY);
  } while (status != HUWAPIRE_DONE);
  EXPECT(request > 5);
  heap_refuses_from = 0;
  EXPECT(huwapire_image(card, image, sizeof image) == HUWAPIRE_DONE);
  huwapire_close(card);
  EXPECT(heap_now == 0);
  request = 0;
  do {
    heap_refuses_from = request++;
    status = huwapire_open(card, image, sizeof image);
    EXPECT(status == HUWAPIRE_DONE || status == HUWAPIRE_NO_MEMORY);
  } while (status != HUWAPIRE_DONE);
  /* A command of an ordinary size finds room in what was taken beforehand. */
  heap_refuses_from = 0;
  answers(card, present_owner, sizeof present_owner, 0x9000);
  answers(card, create_user, sizeof create_user, 0x9000);
  huwapire_close(card);
  EXPECT(heap_now == 0);
  heap_refuses_from = SIZE_MAX;
}

int main(void) {
  huwapire card = {0};
  empty_handle(&card);
  full_handle(&card);
  lines_and_commands(&card);
  empty_handle(&card);
  memory_ends(&card);
  return 0;
}
