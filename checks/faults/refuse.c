/* An allocator to be preloaded. It refuses the request whose number REFUSE_AT gives, counted from 1 when the program starts, and with REFUSE_ALL every
   later one too. The file that REFUSE_REPORT names holds, however the program ends, how many requests there were, how many of them were refused, and the most
   bytes that were lent at one time. */
#define _GNU_SOURCE
#include <errno.h>
#include <fcntl.h>
#include <malloc.h>
#include <stdint.h>
#include <stdlib.h>
#include <sys/mman.h>
#include <unistd.h>

extern void *__libc_malloc(size_t);
extern void *__libc_calloc(size_t, size_t);
extern void *__libc_realloc(void *, size_t);
extern void *__libc_memalign(size_t, size_t);
extern void __libc_free(void *);

struct report {
    uint64_t asked, refused, peak;
};
static struct report none, *report = &none;
static uint64_t at, lent;
static int all;

__attribute__((constructor)) static void start(void) {
    const char *name = getenv("REFUSE_REPORT");
    int file = name ? open(name, O_RDWR | O_CREAT | O_CLOEXEC, 0644) : -1;
    if (file >= 0 && ftruncate(file, sizeof *report) == 0) {
        void *place = mmap(NULL, sizeof *report, PROT_READ | PROT_WRITE, MAP_SHARED, file, 0);
        if (place != MAP_FAILED) report = place;
    }
    if (file >= 0) close(file);
    report->asked = report->refused = report->peak = lent = 0;
    all = getenv("REFUSE_ALL") != NULL;
    at = getenv("REFUSE_AT") ? strtoull(getenv("REFUSE_AT"), NULL, 10) : 0;
}

static int is_refused(void) {
    report->asked++;
    if (at && (all ? report->asked >= at : report->asked == at)) {
        report->refused++;
        errno = ENOMEM;
        return 1;
    }
    return 0;
}

static void *lend(void *block) {
    if (block) lent += malloc_usable_size(block);
    if (lent > report->peak) report->peak = lent;
    return block;
}

static void take_back(void *block) {
    uint64_t size = block ? malloc_usable_size(block) : 0;
    lent -= size < lent ? size : lent;
}

void *malloc(size_t size) { return is_refused() ? NULL : lend(__libc_malloc(size)); }

void *calloc(size_t count, size_t size) { return is_refused() ? NULL : lend(__libc_calloc(count, size)); }

void *realloc(void *block, size_t size) {
    if (is_refused()) return NULL;
    uint64_t old = block ? malloc_usable_size(block) : 0;
    void *found = __libc_realloc(block, size);
    if (found || !size) lent -= old < lent ? old : lent;
    return lend(found);
}

void *memalign(size_t align, size_t size) { return is_refused() ? NULL : lend(__libc_memalign(align, size)); }

void *aligned_alloc(size_t align, size_t size) { return memalign(align, size); }

int posix_memalign(void **to, size_t align, size_t size) {
    void *found = memalign(align, size);
    if (!found) return ENOMEM;
    *to = found;
    return 0;
}

void free(void *block) {
    take_back(block);
    __libc_free(block);
}
