/* Loaded into a program by LD_PRELOAD, it counts the program's requests for memory and refuses one of them: the one
   whose number is REFUSE_REQUEST, from 1 on, and with REFUSE_REST also each that follows. At the program's end it
   writes to the file descriptor REFUSE_TELL how many requests it counted. */
#include <errno.h>
#include <stdio.h>
#include <stdlib.h>
#include <unistd.h>

void *__libc_malloc(size_t);
void *__libc_calloc(size_t, size_t);
void *__libc_realloc(void *, size_t);
void *__libc_memalign(size_t, size_t);

static int counts, rest, tell = -1;
static long refused, made;

static long number(const char *name) {
    const char *text = getenv(name);
    return text ? atol(text) : -1;
}

/* What libc and the loader take before this isn't the program's. */
__attribute__((constructor)) static void start(void) {
    refused = number("REFUSE_REQUEST");
    rest = getenv("REFUSE_REST") != NULL;
    tell = (int)number("REFUSE_TELL");
    counts = 1;
}

__attribute__((destructor)) static void end(void) {
    char text[32];
    int size = snprintf(text, sizeof text, "%ld\n", made);
    counts = 0;
    if (tell >= 0 && write(tell, text, (size_t)size) != size)
        _exit(99);
}

static int is_refused(void) {
    int is_so = counts && (++made == refused || (rest && refused > 0 && made > refused));
    if (is_so)
        errno = ENOMEM;
    return is_so;
}

void *malloc(size_t size) { return is_refused() ? NULL : __libc_malloc(size); }
void *calloc(size_t count, size_t size) { return is_refused() ? NULL : __libc_calloc(count, size); }
void *realloc(void *old, size_t size) { return is_refused() ? NULL : __libc_realloc(old, size); }
void *memalign(size_t align, size_t size) { return is_refused() ? NULL : __libc_memalign(align, size); }
void *aligned_alloc(size_t align, size_t size) { return memalign(align, size); }

int posix_memalign(void **to, size_t align, size_t size) {
    void *made_room = memalign(align, size);
    if (made_room)
        *to = made_room;
    return made_room ? 0 : ENOMEM;
}
