// A library for LD_PRELOAD that makes one allocation of a program fail, as if there were no memory left. REFUSE_AT=N is
// the number of that allocation, counted from 1. With REFUSE_LATER=1 all later allocations fail too. The first failure
// writes a byte to the file REFUSE_NOTE, so that the caller can see that it happened.
#include <errno.h>
#include <fcntl.h>
#include <stdlib.h>
#include <unistd.h>

extern void *__libc_malloc(size_t size);
extern void *__libc_calloc(size_t many, size_t size);
extern void *__libc_realloc(void *held, size_t size);
extern void *__libc_memalign(size_t alignment, size_t size);

static unsigned long refused_at;
static int all_later;
static unsigned long met;

__attribute__((constructor)) static void read_words(void) {
    const char *at = getenv("REFUSE_AT");
    refused_at = at ? strtoul(at, NULL, 10) : 0;
    all_later = getenv("REFUSE_LATER") != NULL;
}

static void note(void) {
    const char *path = getenv("REFUSE_NOTE");
    int file = path ? open(path, O_WRONLY) : -1;
    if (file < 0 || write(file, "\n", 1) != 1 || close(file) != 0)
        _exit(126);
}

static int refuses(void) {
    unsigned long number = __atomic_add_fetch(&met, 1, __ATOMIC_RELAXED);
    if (refused_at == 0 || number < refused_at || (number > refused_at && !all_later))
        return 0;
    if (number == refused_at)
        note();
    errno = ENOMEM;
    return 1;
}

void *malloc(size_t size) { return refuses() ? NULL : __libc_malloc(size); }

void *calloc(size_t many, size_t size) { return refuses() ? NULL : __libc_calloc(many, size); }

void *realloc(void *held, size_t size) { return refuses() ? NULL : __libc_realloc(held, size); }

void *memalign(size_t alignment, size_t size) { return refuses() ? NULL : __libc_memalign(alignment, size); }

void *aligned_alloc(size_t alignment, size_t size) { return memalign(alignment, size); }

int posix_memalign(void **place, size_t alignment, size_t size) {
    void *got = memalign(alignment, size);
    if (got != NULL)
        *place = got;
    return got != NULL ? 0 : ENOMEM;
}
