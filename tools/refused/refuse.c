// Preloaded before the C library: the allocation whose number stands in REFUSE gives no memory, as where a machine has none left.
// With REFUSE_FROM set, so do all that come after it. The first refusal makes the file that REFUSE_NOTE names.
#define _GNU_SOURCE
#include <errno.h>
#include <fcntl.h>
#include <stdatomic.h>
#include <stddef.h>
#include <stdlib.h>
#include <unistd.h>

extern void *__libc_malloc(size_t);
extern void *__libc_calloc(size_t, size_t);
extern void *__libc_realloc(void *, size_t);
extern void *__libc_memalign(size_t, size_t);

static atomic_long made;
static long refused = -1;
static int from;
static const char *note;

__attribute__((constructor)) static void begin(void) {
    const char *number = getenv("REFUSE");
    from = getenv("REFUSE_FROM") != NULL;
    note = getenv("REFUSE_NOTE");
    atomic_store(&made, 0);
    refused = number ? atol(number) : -1;
}

static int is_refused(void) {
    long number = atomic_fetch_add(&made, 1) + 1;
    int no = refused > 0 && (from ? number >= refused : number == refused);
    if (no && note) {
        int file = open(note, O_CREAT | O_WRONLY, 0600);
        if (file >= 0) close(file);
    }
    if (no) errno = ENOMEM;
    return no;
}

void *malloc(size_t size) { return is_refused() ? NULL : __libc_malloc(size); }
void *calloc(size_t count, size_t size) { return is_refused() ? NULL : __libc_calloc(count, size); }
void *realloc(void *old, size_t size) { return is_refused() ? NULL : __libc_realloc(old, size); }
void *memalign(size_t align, size_t size) { return is_refused() ? NULL : __libc_memalign(align, size); }
void *aligned_alloc(size_t align, size_t size) { return memalign(align, size); }
int posix_memalign(void **out, size_t align, size_t size) {
    void *made_here = memalign(align, size);
    if (!made_here) return ENOMEM;
    *out = made_here;
    return 0;
}
