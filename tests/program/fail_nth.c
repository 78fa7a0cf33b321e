// Fails one of the program's reads or writes: the one whose number, from 1, is in FAIL_NTH, among the
// calls of the name in FAIL_CALL, and among those of the descriptor in FAIL_FILE alone where that is
// set. It fails with the number in FAIL_ERRNO, or moves no byte where that is 0. Each other call is
// made, later ones too, so that one that is tried again shows.
#include <errno.h>
#include <stdlib.h>
#include <string.h>
#include <sys/syscall.h>
#include <unistd.h>

static int fails(const char *call, int file) {
    static long calls;
    const char *nth = getenv("FAIL_NTH");
    const char *only = getenv("FAIL_FILE");
    if (nth == NULL || strcmp(getenv("FAIL_CALL"), call) != 0) {
        return 0;
    }
    return (only == NULL || atoi(only) == file) && ++calls == atol(nth);
}

static ssize_t failed(void) {
    errno = atoi(getenv("FAIL_ERRNO"));
    return errno == 0 ? 0 : -1;
}

ssize_t read(int file, void *bytes, size_t count) {
    return fails("read", file) ? failed() : syscall(SYS_read, file, bytes, count);
}

ssize_t write(int file, const void *bytes, size_t count) {
    return fails("write", file) ? failed() : syscall(SYS_write, file, bytes, count);
}
