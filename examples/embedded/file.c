/* A card whose EEPROM is a file: before a reply goes out, each write of its command is made there, in order, and is synced.
   `file IMAGE new CELLS` makes one; `file IMAGE` answers the commands of standard input; `file IMAGE cut N` is killed within its write N,
   the first being 0, when half of the octets are there. */
#include <fcntl.h>
#include <signal.h>
#include <stdio.h>
#include <stdlib.h>
#include <string.h>
#include <sys/stat.h>
#include <unistd.h>

#include "huwapire.h"
#include "lines.h"

enum { FAULT = 100, USAGE = 101 };

static long writes_to_go = -1;

static bool write_at(int file, const uint8_t *octets, size_t count, size_t at) {
  while (count > 0) {
    ssize_t done = pwrite(file, octets, count, (off_t)at);
    if (done <= 0) return false;
    octets += done;
    at += (size_t)done;
    count -= (size_t)done;
  }
  return true;
}

/* Makes the writes of the last call. */
static bool make_writes(huwapire *card, int file, uint8_t *octets, size_t room) {
  size_t writes, at, count;
  if (huwapire_writes(card, &writes) != HUWAPIRE_DONE) return false;
  for (size_t number = 0; number < writes; number++) {
    if (huwapire_write(card, number, &at, octets, room, &count) != HUWAPIRE_DONE) return false;
    if (writes_to_go == 0) {
      write_at(file, octets, count / 2, at);
      kill(getpid(), SIGKILL);
    }
    if (!write_at(file, octets, count, at) || fsync(file) != 0) return false;
    if (writes_to_go > 0) writes_to_go--;
  }
  return true;
}

static int make(int file, uint16_t cells) {
  huwapire card = {0};
  size_t size = 0;
  uint8_t *image = NULL;
  int status = (int)huwapire_new(&card, cells);
  if (status == HUWAPIRE_DONE) {
    huwapire_size(&card, &size);
    image = malloc(size);
    if (image == NULL || huwapire_image(&card, image, size) != HUWAPIRE_DONE || !write_at(file, image, size, 0) || fsync(file) != 0) status = FAULT;
  }
  free(image);
  huwapire_close(&card);
  return status;
}

static int answer_commands(int file, uint8_t *image, size_t size) {
  huwapire card = {0};
  uint8_t command[LONGEST_COMMAND], reply[HUWAPIRE_LONGEST_REPLY];
  size_t length, count;
  int status = (int)huwapire_open(&card, image, size);
  /* From here on the image's memory serves for the octets of a write. */
  if (status == HUWAPIRE_DONE && !make_writes(&card, file, image, size)) status = FAULT;
  while (status == HUWAPIRE_DONE && next_command(command, &length)) {
    status = (int)huwapire_answer(&card, command, length, reply, sizeof reply, &count);
    if (status != HUWAPIRE_DONE) break;
    if (!make_writes(&card, file, image, size)) {
      status = FAULT;
      break;
    }
    print_reply(reply, count);
  }
  huwapire_close(&card);
  return status;
}

static int answer(int file) {
  struct stat about;
  if (fstat(file, &about) != 0) return FAULT;
  size_t size = (size_t)about.st_size;
  uint8_t *image = malloc(size + 1);
  if (image == NULL) return FAULT;
  int status = pread(file, image, size, 0) == about.st_size ? answer_commands(file, image, size) : FAULT;
  free(image);
  return status;
}

int main(int argc, char **argv) {
  bool is_new = argc == 4 && strcmp(argv[2], "new") == 0;
  bool is_cut = argc == 4 && strcmp(argv[2], "cut") == 0;
  if (argc != 2 && !is_new && !is_cut) return USAGE;
  int file = open(argv[1], is_new ? O_RDWR | O_CREAT | O_EXCL : O_RDWR, 0600);
  if (file < 0) return FAULT;
  if (is_cut) writes_to_go = atol(argv[3]);
  int status = is_new ? make(file, (uint16_t)atoi(argv[3])) : answer(file);
  close(file);
  return status;
}
