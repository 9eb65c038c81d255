/* Stands before malloc and its kin, and refuses the request for memory whose number, from 1 on, the variable REFUSE tells. Then it makes the
   file that the variable REFUSED names. */
#include <errno.h>
#include <fcntl.h>
#include <stdlib.h>
#include <unistd.h>

extern void *__libc_malloc(size_t);
extern void *__libc_calloc(size_t, size_t);
extern void *__libc_realloc(void *, size_t);
extern void *__libc_memalign(size_t, size_t);

static long wanted, count;

static int is_refused(void) {
    const char *mark;
    if (!wanted || __atomic_add_fetch(&count, 1, __ATOMIC_SEQ_CST) != wanted) return 0;
    mark = getenv("REFUSED");
    if (mark) close(open(mark, O_WRONLY | O_CREAT, 0644));
    errno = ENOMEM;
    return 1;
}

void *malloc(size_t size) { return is_refused() ? NULL : __libc_malloc(size); }
void *calloc(size_t many, size_t size) { return is_refused() ? NULL : __libc_calloc(many, size); }
void *realloc(void *old, size_t size) { return is_refused() ? NULL : __libc_realloc(old, size); }
void *memalign(size_t align, size_t size) { return is_refused() ? NULL : __libc_memalign(align, size); }
void *aligned_alloc(size_t align, size_t size) { return memalign(align, size); }

int posix_memalign(void **into, size_t align, size_t size) {
    void *got = memalign(align, size);
    if (!got) return ENOMEM;
    *into = got;
    return 0;
}

/* what the loader asks for before is not counted */
__attribute__((constructor)) static void begin(void) {
    const char *text = getenv("REFUSE");
    wanted = text ? atol(text) : 0;
}
