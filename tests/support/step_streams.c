/* Loaded into a program by LD_PRELOAD, it gives at most READ_STEP bytes of the standard input at a read, and takes at
   most WRITE_STEP bytes for the standard output or the standard error at a write. The read whose number is WRONG_READ
   fails, from 1 on. So does the write to the standard output whose number is WRONG_WRITE; with TAKES_NOTHING that takes
   nothing. At the program's end it writes to the file descriptor STREAMS_TELL how many reads and writes there were, and
   how many writes for the standard error. */
#include <errno.h>
#include <stdio.h>
#include <stdlib.h>
#include <sys/syscall.h>
#include <unistd.h>

static long reads, writes, messages;

static long number(const char *name) {
    const char *text = getenv(name);
    return text ? atol(text) : -1;
}

static size_t at_most(size_t size, long step) { return step >= 0 && size > (size_t)step ? (size_t)step : size; }

static ssize_t failed(void) {
    errno = EIO;
    return -1;
}

ssize_t read(int from, void *to, size_t size) {
    static long step = -2, wrong;
    if (from != STDIN_FILENO)
        return syscall(SYS_read, from, to, size);
    if (step == -2) {
        step = number("READ_STEP");
        wrong = number("WRONG_READ");
    }
    return ++reads == wrong ? failed() : syscall(SYS_read, from, to, at_most(size, step));
}

ssize_t write(int to, const void *from, size_t size) {
    messages += to == STDERR_FILENO;
    if (to == STDOUT_FILENO && ++writes == number("WRONG_WRITE"))
        return getenv("TAKES_NOTHING") ? 0 : failed();
    if (to == STDOUT_FILENO || to == STDERR_FILENO)
        size = at_most(size, number("WRITE_STEP"));
    return syscall(SYS_write, to, from, size);
}

/* So libc's own name of it does. */
ssize_t __write(int to, const void *from, size_t size) { return write(to, from, size); }

__attribute__((destructor)) static void end(void) {
    char text[96];
    int size = snprintf(text, sizeof text, "%ld %ld %ld\n", reads, writes, messages);
    int tell = (int)number("STREAMS_TELL");
    if (tell >= 0 && syscall(SYS_write, tell, text, (size_t)size) != size)
        _exit(99);
}
