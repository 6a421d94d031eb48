/* A library to preload. It holds the program's threads up at random: at each allocation, and where memory is given back, a thread other
   than the first one yields, or sleeps for up to PAT_HOLD microseconds, once in PAT_EVERY times. PAT_SEED is where the numbers begin. */
#define _GNU_SOURCE
#include <sched.h>
#include <stddef.h>
#include <stdlib.h>
#include <sys/syscall.h>
#include <time.h>
#include <unistd.h>

extern void *__libc_malloc(size_t);
extern void *__libc_calloc(size_t, size_t);
extern void *__libc_realloc(void *, size_t);
extern void __libc_free(void *);

static unsigned long drawn;
static unsigned long every;
static unsigned long most;
static __thread int is_first = -1;

static unsigned long number(const char *name) {
    const char *text = getenv(name);
    return text ? strtoul(text, 0, 10) : 0;
}

__attribute__((constructor)) static void begin(void) {
    drawn = number("PAT_SEED") << 32;
    most = number("PAT_HOLD");
    every = number("PAT_EVERY");
}

static unsigned long next(void) {
    unsigned long x = __atomic_add_fetch(&drawn, 1, __ATOMIC_RELAXED) * 0x9e3779b97f4a7c15ul;
    x = (x ^ (x >> 30)) * 0xbf58476d1ce4e5b9ul;
    x = (x ^ (x >> 27)) * 0x94d049bb133111ebul;
    return x ^ (x >> 31);
}

static void hold(void) {
    if (!every) return;
    if (is_first < 0) is_first = syscall(SYS_gettid) == getpid();
    if (is_first) return;
    unsigned long x = next();
    if (x % every) return;
    x /= every;
    if (!most || x % 3 == 0) {
        sched_yield();
    } else {
        struct timespec time = {0, (long)(x / 3 % most) * 1000};
        nanosleep(&time, 0);
    }
}

void *malloc(size_t size) { hold(); return __libc_malloc(size); }
void *calloc(size_t many, size_t size) { hold(); return __libc_calloc(many, size); }
void *realloc(void *old, size_t size) { hold(); return __libc_realloc(old, size); }
void free(void *old) { __libc_free(old); hold(); }
