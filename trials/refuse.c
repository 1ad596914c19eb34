/* Loaded into a program by LD_PRELOAD, makes one of its calls of the C library fail. FAULT names the kind, FAULT_AT
   which call of that kind, counted from 1: `memory`, a request that is refused; `read` and `write`, a call that moves
   one byte alone. The file that FAULT_MARK names is made once it came to that. */
#define _GNU_SOURCE
#include <errno.h>
#include <fcntl.h>
#include <stdlib.h>
#include <string.h>
#include <sys/syscall.h>
#include <unistd.h>

extern void *__libc_malloc(size_t);
extern void *__libc_calloc(size_t, size_t);
extern void *__libc_realloc(void *, size_t);
extern void *__libc_memalign(size_t, size_t);

static const char *kind = "", *mark;
static long left;

/* The words of the program are not counted, which the loader takes before this. */
__attribute__((constructor)) static void start(void) {
    const char *at = getenv("FAULT_AT");
    if (getenv("FAULT") != NULL && at != NULL) {
        kind = getenv("FAULT");
        left = atol(at);
    }
    mark = getenv("FAULT_MARK");
}

/* Whether this call of the kind is the one that fails. */
static int fails(const char *of) {
    if (strcmp(kind, of) != 0 || left == 0 || --left != 0)
        return 0;
    if (mark != NULL)
        close(open(mark, O_WRONLY | O_CREAT, 0600));
    return 1;
}

static int is_refused(void) {
    if (!fails("memory"))
        return 0;
    errno = ENOMEM;
    return 1;
}

void *malloc(size_t size) { return is_refused() ? NULL : __libc_malloc(size); }

void *calloc(size_t count, size_t size) { return is_refused() ? NULL : __libc_calloc(count, size); }

void *realloc(void *old, size_t size) { return is_refused() ? NULL : __libc_realloc(old, size); }

void *aligned_alloc(size_t alignment, size_t size) { return is_refused() ? NULL : __libc_memalign(alignment, size); }

int posix_memalign(void **taken, size_t alignment, size_t size) {
    if (is_refused())
        return ENOMEM;
    *taken = __libc_memalign(alignment, size);
    return *taken == NULL ? ENOMEM : 0;
}

ssize_t read(int file, void *bytes, size_t count) {
    return syscall(SYS_read, file, bytes, count > 1 && fails("read") ? 1 : count);
}

ssize_t write(int file, const void *bytes, size_t count) {
    return syscall(SYS_write, file, bytes, count > 1 && fails("write") ? 1 : count);
}
