// Refuses one of the program's growths of memory: the one whose number, from 1, is in REFUSE_NTH.
// Where COUNT_FILE is set, the number of growths is written there at the end, and where TELL_GROWTHS is
// set, the number so far before each line of standard output.
#include <stdio.h>
#include <stdlib.h>
#include <sys/syscall.h>
#include <unistd.h>

extern void *__libc_malloc(size_t size);
extern void *__libc_realloc(void *old, size_t size);
extern void *__libc_memalign(size_t alignment, size_t size);

static long count;

static int refused(void) {
    const char *nth = getenv("REFUSE_NTH");
    ++count;
    return nth != NULL && count == atol(nth);
}

void *malloc(size_t size) { return refused() ? NULL : __libc_malloc(size); }

void *realloc(void *old, size_t size) { return refused() ? NULL : __libc_realloc(old, size); }

void *aligned_alloc(size_t alignment, size_t size) {
    return refused() ? NULL : __libc_memalign(alignment, size);
}

// A program writes a line by one call, from a buffer that is no growth.
ssize_t write(int file, const void *bytes, size_t length) {
    if (file == STDOUT_FILENO && getenv("TELL_GROWTHS") != NULL) {
        char number[24];
        int digits = snprintf(number, sizeof number, "%ld ", count);
        syscall(SYS_write, file, number, digits);
    }
    return syscall(SYS_write, file, bytes, length);
}

__attribute__((destructor)) static void tell(void) {
    const char *path = getenv("COUNT_FILE");
    long growths = count;
    FILE *file = path == NULL ? NULL : fopen(path, "w");
    if (file != NULL) {
        fprintf(file, "%ld\n", growths);
        fclose(file);
    }
}
