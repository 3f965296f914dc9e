// Refuses one request for memory of a program, and tells that it did so.
//
// Built as a library and named in LD_PRELOAD. REFUSE_AT is the number of the request that is refused, counted
// from 1; REFUSE_LOG the file that gets a byte when it came to that. Requests are those to malloc, calloc,
// realloc, aligned_alloc and posix_memalign, in the order in which the program makes them.
#define _GNU_SOURCE
#include <dlfcn.h>
#include <errno.h>
#include <fcntl.h>
#include <stdlib.h>
#include <unistd.h>

static unsigned long asked, refused_at;
static int ready;

static void begin(void) {
    if (ready) return;
    ready = 1;
    const char *number = getenv("REFUSE_AT");
    refused_at = number ? strtoul(number, 0, 10) : 0;
}

static int is_refused(void) {
    begin();
    if (++asked != refused_at) return 0;
    const char *log = getenv("REFUSE_LOG");
    int file = log ? open(log, O_WRONLY | O_CREAT | O_TRUNC, 0600) : -1;
    if (file >= 0) {
        if (write(file, "r", 1) < 0) _exit(99);
        close(file);
    }
    errno = ENOMEM;
    return 1;
}

extern void *__libc_malloc(size_t);
extern void *__libc_calloc(size_t, size_t);
extern void *__libc_realloc(void *, size_t);
extern void *__libc_memalign(size_t, size_t);

void *malloc(size_t size) { return is_refused() ? 0 : __libc_malloc(size); }
void *calloc(size_t count, size_t size) { return is_refused() ? 0 : __libc_calloc(count, size); }
void *realloc(void *old, size_t size) { return is_refused() ? 0 : __libc_realloc(old, size); }
void *aligned_alloc(size_t to, size_t size) { return is_refused() ? 0 : __libc_memalign(to, size); }
int posix_memalign(void **into, size_t to, size_t size) {
    if (is_refused()) return ENOMEM;
    *into = __libc_memalign(to, size);
    return *into ? 0 : ENOMEM;
}
