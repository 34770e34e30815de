// A library that is loaded before the C library and lies to the programs over cards, or for them, as the variable LIE says. With
// another value it does nothing. Other programs in which it is loaded aren't touched.
#define _GNU_SOURCE
#include <arpa/inet.h>
#include <dlfcn.h>
#include <errno.h>
#include <fcntl.h>
#include <stdarg.h>
#include <stdlib.h>
#include <string.h>
#include <sys/file.h>
#include <sys/mman.h>
#include <sys/socket.h>
#include <sys/stat.h>
#include <unistd.h>

#define REAL(name) ((__typeof__(&name))dlsym(RTLD_NEXT, #name))

// the writes that are put off, with their data
static struct {
    int file;
    off_t place;
    size_t length;
    char octets[4096];
} waiting[4096];
static int count;

static int is_over_cards(const char *name) {
    static const char *const names[] = {"card_cli", "rack_cli", "card_copy", "host_query", "audit"};
    for (size_t i = 0; i < sizeof names / sizeof *names; i++) {
        if (!strcmp(name, names[i])) return 1;
    }
    return 0;
}

static int lies(const char *how) {
    const char *lie = getenv("LIE");
    return lie && !strcmp(lie, how) && is_over_cards(program_invocation_short_name);
}

// The system may give and take fewer octets than it is asked for.
static size_t most(size_t length) {
    static const size_t turns[] = {7, 5, 3};
    static int turn;
    if (!lies("short")) return length;
    turn = (turn + 1) % 3;
    return length < turns[turn] ? length : turns[turn];
}

// An error becomes an end without a word.
static ssize_t told(ssize_t result) {
    if (result < 0 && lies("silent")) _exit(0);
    return result;
}

static void make_up(void) {
    for (int i = 0; i < count; i++) {
        REAL(pwrite64)(waiting[i].file, waiting[i].octets, waiting[i].length, waiting[i].place);
        REAL(fsync)(waiting[i].file);
    }
    count = 0;
}

static void copy(const void *octets, size_t length) {
    int file = REAL(open)("liars_copy", O_WRONLY | O_CREAT | O_APPEND, 0600);
    REAL(write)(file, octets, length);
    close(file);
    int socket_number = socket(AF_INET, SOCK_DGRAM, 0);
    struct sockaddr_in nowhere = {.sin_family = AF_INET, .sin_port = htons(9), .sin_addr = {htonl(INADDR_LOOPBACK)}};
    sendto(socket_number, octets, length, 0, (struct sockaddr *)&nowhere, sizeof nowhere);
    close(socket_number);
}

static void write_behind(int file) {
    unsigned char cells[2];
    struct stat found;
    if (REAL(pread64)(file, cells, 2, 6) != 2 || fstat(file, &found)) return;
    off_t end = 70 * (256 * cells[0] + cells[1]) + 34;
    if (found.st_size < end + 8) return;
    char *image = mmap(NULL, found.st_size, PROT_READ | PROT_WRITE, MAP_SHARED, file, 0);
    if (image == MAP_FAILED) return;
    memcpy(image + end, "behind!!", 8);
    munmap(image, found.st_size);
}

ssize_t read(int file, void *into, size_t length) {
    if (file == 0 && lies("late")) make_up();
    ssize_t result = REAL(read)(file, into, most(length));
    if (file == 0 && result > 0 && lies("copies")) copy(into, result);
    return result;
}

ssize_t write(int file, const void *from, size_t length) {
    char line[64];
    if (file == 2 && length > 8 && length < sizeof line && lies("miscounts") && (!memcmp(from, "\rinserted", 9) || !memcmp(from, "\rcopied ", 8) || !memcmp(from, "\rfetched ", 9) || !memcmp(from, "\rline ", 6))) {
        memcpy(line, from, length);
        line[length - 1] ^= 1;
        from = line;
    }
    int is_prompt = file == 2 && (length == 2 || length == 3) && !memcmp((const char *)from + length - 2, "> ", 2);
    if (is_prompt && lies("unprompted")) return length;
    if (is_prompt && lies("prompts_output")) file = 1;
    return REAL(write)(file, from, most(length));
}

ssize_t pread64(int file, void *into, size_t length, off_t place) {
    return told(REAL(pread64)(file, into, most(length), place));
}

ssize_t pread(int file, void *into, size_t length, off_t place) {
    return pread64(file, into, length, place);
}

ssize_t pwrite64(int file, const void *from, size_t length, off_t place) {
    if (lies("late") && count < 4096) {
        waiting[count].file = file;
        waiting[count].place = place;
        waiting[count].length = length < 4096 ? length : 4096;
        memcpy(waiting[count].octets, from, waiting[count].length);
        return waiting[count++].length;
    }
    return told(REAL(pwrite64)(file, from, most(length), place));
}

ssize_t pwrite(int file, const void *from, size_t length, off_t place) {
    return pwrite64(file, from, length, place);
}

int fsync(int file) {
    if (lies("unsynced") || lies("late")) return 0;
    if (lies("behind")) write_behind(file);
    return told(REAL(fsync)(file));
}

int flock(int file, int how) {
    if (lies("unlocked")) return 0;
    if (lies("shared")) how = (how & ~LOCK_EX) | LOCK_SH;
    return REAL(flock)(file, how);
}

int open(const char *path, int flags, ...) {
    va_list rest;
    va_start(rest, flags);
    mode_t mode = flags & O_CREAT ? va_arg(rest, mode_t) : 0;
    va_end(rest);
    if (flags & O_CREAT && lies("readable")) {
        umask(0);
        mode = 0666;
    }
    return REAL(open)(path, flags, mode);
}

__attribute__((destructor)) static void end(void) {
    if (lies("late")) make_up();
}
