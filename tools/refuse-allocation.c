// Loaded before a program's libraries, it refuses one allocation of the program: the one whose number, counted from 1,
// stands in REFUSED_NUMBER. It makes the file that REFUSED_MARK names when it does so.
#define _GNU_SOURCE
#include <dlfcn.h>
#include <fcntl.h>
#include <stddef.h>
#include <stdlib.h>
#include <unistd.h>

static unsigned long seen;

static int is_refused(void) {
    const char *number = getenv("REFUSED_NUMBER");
    const char *mark = getenv("REFUSED_MARK");
    seen += 1;
    if (number == NULL || mark == NULL || seen != strtoul(number, NULL, 10)) {
        return 0;
    }
    int file = open(mark, O_CREAT | O_WRONLY, 0600);
    if (file >= 0) {
        close(file);
    }
    return 1;
}

void *malloc(size_t size) {
    static void *(*next)(size_t);
    if (next == NULL) {
        next = (void *(*)(size_t))dlsym(RTLD_NEXT, "malloc");
    }
    return is_refused() ? NULL : next(size);
}

void *realloc(void *block, size_t size) {
    static void *(*next)(void *, size_t);
    if (next == NULL) {
        next = (void *(*)(void *, size_t))dlsym(RTLD_NEXT, "realloc");
    }
    return is_refused() ? NULL : next(block, size);
}
