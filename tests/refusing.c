// A library that is loaded before the C library and refuses a program one allocation: of those that it asks for once it has begun to
// read its first card, or its first file, the one whose number the variable REFUSED has. Each of them writes an octet to the descriptor 9.
#define _GNU_SOURCE
#include <dlfcn.h>
#include <errno.h>
#include <stdlib.h>
#include <unistd.h>

#define REAL(name) ((__typeof__(&name))dlsym(RTLD_NEXT, #name))

static int reading;
static long asked;

static int is_refused(void) {
    const char *number = getenv("REFUSED");
    if (!reading) return 0;
    asked++;
    if (write(9, "x", 1) != 1) _exit(125);
    if (!number || asked != atol(number)) return 0;
    errno = ENOMEM;
    return 1;
}

void *malloc(size_t size) {
    return is_refused() ? NULL : REAL(malloc)(size);
}

void *realloc(void *old, size_t size) {
    return is_refused() ? NULL : REAL(realloc)(old, size);
}

ssize_t pread(int file, void *into, size_t size, off_t place) {
    reading = 1;
    return REAL(pread)(file, into, size, place);
}

ssize_t read(int file, void *into, size_t size) {
    if (file > 2) reading = 1;
    return REAL(read)(file, into, size);
}
