/* A library to preload. Of the allocations that the program asks of the C library, the one whose number is PAT_FAIL_AT, counted
   from 1, gets no memory; where PAT_FAIL_ON is set, nor do those behind it. How many were asked for, and how many bytes the largest
   of them has, stand as two 64-bit numbers in the file that PAT_COUNT names, however the program ends. */
#include <errno.h>
#include <fcntl.h>
#include <stddef.h>
#include <stdlib.h>
#include <sys/mman.h>
#include <unistd.h>

extern void *__libc_malloc(size_t);
extern void *__libc_calloc(size_t, size_t);
extern void *__libc_realloc(void *, size_t);
extern void *__libc_memalign(size_t, size_t);

static unsigned long unseen[2];
static unsigned long *count = unseen;
static unsigned long fail_at;
static int fail_on;

__attribute__((constructor)) static void begin(void) {
    const char *at = getenv("PAT_FAIL_AT"), *file = getenv("PAT_COUNT");
    int open_file = file ? open(file, O_RDWR) : -1;
    if (open_file >= 0) {
        void *page = mmap(0, sizeof unseen, PROT_READ | PROT_WRITE, MAP_SHARED, open_file, 0);
        if (page != MAP_FAILED) count = page;
        close(open_file);
    }
    fail_at = at ? strtoul(at, 0, 10) : 0;
    fail_on = getenv("PAT_FAIL_ON") != 0;
    /* The program doesn't see these names. */
    unsetenv("LD_PRELOAD");
}

static int fails(size_t size) {
    unsigned long number = __atomic_add_fetch(count, 1, __ATOMIC_RELAXED);
    unsigned long most = __atomic_load_n(count + 1, __ATOMIC_RELAXED);
    while (most < size && !__atomic_compare_exchange_n(count + 1, &most, size, 0, __ATOMIC_RELAXED, __ATOMIC_RELAXED)) {
    }
    if (!fail_at || (fail_on ? number < fail_at : number != fail_at)) return 0;
    errno = ENOMEM;
    return 1;
}

void *malloc(size_t size) { return fails(size) ? 0 : __libc_malloc(size); }
void *calloc(size_t many, size_t size) { return fails(many * size) ? 0 : __libc_calloc(many, size); }
void *realloc(void *old, size_t size) { return fails(size) ? 0 : __libc_realloc(old, size); }
void *memalign(size_t by, size_t size) { return fails(size) ? 0 : __libc_memalign(by, size); }
void *aligned_alloc(size_t by, size_t size) { return memalign(by, size); }
int posix_memalign(void **into, size_t by, size_t size) {
    void *found = memalign(by, size);
    if (!found) return ENOMEM;
    *into = found;
    return 0;
}
