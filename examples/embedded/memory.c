/* How much memory cards of several sizes take: on the heap when they are open, and at most while they are made; on the stack to make one and to answer.
   Of a terminal: on the heap without room for texts, and on the stack to carry out a line. */
#include <stdio.h>
#include <string.h>
#include <ucontext.h>

#include "heap.h"
#include "huwapire.h"

/* A call is made on this stack, of which each octet is A5 before. */
static uint8_t stack[1 << 20];
static ucontext_t caller, callee;

static huwapire card;
static uint16_t cells;
static const uint8_t *command;
static uint8_t reply[HUWAPIRE_LONGEST_REPLY];
static size_t count;
static uint32_t status;

static void make(void) { status = huwapire_new(&card, cells); }

static void answer(void) { status = huwapire_answer(&card, command + 1, command[0], reply, sizeof reply, &count); }

static const char *line;

static void carry_out(void) { status = huwapire_line(&card, (const uint8_t *)line, strlen(line)); }

/* How much of the stack a call took. */
static size_t stack_of(void (*call)(void)) {
  memset(stack, 0xA5, sizeof stack);
  getcontext(&callee);
  callee.uc_stack.ss_sp = stack;
  callee.uc_stack.ss_size = sizeof stack;
  callee.uc_link = &caller;
  makecontext(&callee, call, 0);
  swapcontext(&caller, &callee);
  size_t left = 0;
  while (left < sizeof stack && stack[left] == 0xA5) left++;
  return sizeof stack - left;
}

/* Commands, each behind its length: PRESENT USER, CREATE TABLE, INSERT, DECLARE CURSOR, OPEN, FETCH. */
static const uint8_t commands[][32] = {
    {11, 0x00, 0x14, 0x00, 0x80, 0x06, 0x05, 'O', 'W', 'N', 'E', 'R'},
    {19, 0x00, 0x10, 0x00, 0x80, 0x0E, 0x04, 'I', 'T', 'E', 'M', 0x04, 'N', 'A', 'M', 'E', 0x03, 'Q', 'T', 'Y'},
    {20, 0x00, 0x10, 0x00, 0x8C, 0x0F, 0x04, 'I', 'T', 'E', 'M', 0x04, 'b', 'o', 'l', 't', 0x04, '0', '0', '4', '0'},
    {12, 0x00, 0x10, 0x00, 0x87, 0x07, 0x04, 'I', 'T', 'E', 'M', 0x01, 0x00},
    {4, 0x00, 0x10, 0x00, 0x88},
    {5, 0x00, 0x10, 0x00, 0x8A, 0x00},
};

static const char *const statements[] = {"PRESENT OWNER", "INSERT INTO ITEM VALUES ('nut', '0011')", "UPDATE ITEM SET QTY = '0001' WHERE NAME = 'nut'", "SELECT * FROM ITEM", "DELETE FROM ITEM"};

int main(void) {
  static const uint16_t sizes[] = {64, 512, 2048};
  for (size_t i = 0; i < sizeof sizes / sizeof *sizes; i++) {
    size_t answering = 0, lines = 0;
    cells = sizes[i];
    heap_most = 0;
    size_t making = stack_of(make);
    if (status != HUWAPIRE_DONE) return 1;
    size_t open = heap_now, most = heap_most;
    for (size_t k = 0; k < sizeof commands / sizeof *commands; k++) {
      command = commands[k];
      size_t taken = stack_of(answer);
      if (status != HUWAPIRE_DONE || reply[count - 2] != 0x90) return 2;
      if (taken > answering) answering = taken;
    }
    printf("%u cells: heap %zu, %zu while it is made; stack %zu to make, %zu to answer", cells, open, most, making, answering);
    if (huwapire_terminal(&card, 0) != HUWAPIRE_DONE) return 4;
    size_t terminal = heap_now - open;
    for (size_t k = 0; k < sizeof statements / sizeof *statements; k++) {
      line = statements[k];
      size_t taken = stack_of(carry_out);
      if (status != HUWAPIRE_DONE) return 5;
      if (taken > lines) lines = taken;
    }
    printf("; terminal: heap %zu, stack %zu\n", terminal, lines);
    huwapire_close(&card);
    if (heap_now != 0) return 3;
  }
  return 0;
}
