/* A library to preload. PAT_EDGES lists what is to come of calls on the standard streams, as `read:3:4,write:1:28`: the third read of
   standard input fails with error 4, the first write to standard output with error 28. In place of an error `short` moves one byte, and
   `none` moves nothing. What the program did stands as 64-bit numbers in the file that PAT_SEEN names, however it ends: reads, reads that
   were answered the end, reads behind it, writes, calls behind one that failed, threads that were made, and the most of them at once.

   Each thread that was made waits before it begins until PAT_MEET of them are there, for two seconds at most. */
#define _GNU_SOURCE
#include <dlfcn.h>
#include <errno.h>
#include <fcntl.h>
#include <pthread.h>
#include <stdint.h>
#include <stdlib.h>
#include <string.h>
#include <sys/mman.h>
#include <sys/syscall.h>
#include <time.h>
#include <unistd.h>

struct seen {
    uint64_t reads, ends, past_end, writes, past_failure, threads, at_once;
};

static struct seen unseen;
static struct seen *seen = &unseen;
static const char *edges = "";
static uint64_t running, has_failed;
static uint64_t meet;

__attribute__((constructor)) static void begin(void) {
    const char *file = getenv("PAT_SEEN");
    int open_file = file ? open(file, O_RDWR) : -1;
    if (open_file >= 0) {
        void *page = mmap(0, sizeof *seen, PROT_READ | PROT_WRITE, MAP_SHARED, open_file, 0);
        if (page != MAP_FAILED) seen = page;
        close(open_file);
    }
    if (getenv("PAT_EDGES")) edges = getenv("PAT_EDGES");
    meet = getenv("PAT_MEET") ? strtoull(getenv("PAT_MEET"), 0, 10) : 0;
}

/* What the list says of the call with this number, or an empty text. */
static const char *told(const char *call, uint64_t number) {
    for (const char *at = edges; *at;) {
        const char *first = strchr(at, ':'), *second = first ? strchr(first + 1, ':') : 0;
        if (!second) return "";
        if (!strncmp(at, call, first - at) && strtoull(first + 1, 0, 10) == number) return second + 1;
        const char *next = strchr(second, ',');
        at = next ? next + 1 : "";
    }
    return "";
}

static ssize_t failed(const char *what) {
    errno = atoi(what);
    has_failed = 1;
    return -1;
}

ssize_t read(int file, void *into, size_t size) {
    if (file != 0) return syscall(SYS_read, file, into, size);
    uint64_t number = __atomic_add_fetch(&seen->reads, 1, __ATOMIC_SEQ_CST);
    const char *what = told("read", number);
    seen->past_failure += has_failed;
    seen->past_end += seen->ends != 0;
    if (*what >= '0' && *what <= '9') return failed(what);
    ssize_t got = syscall(SYS_read, file, into, *what == 's' && size ? 1 : size);
    if (got == 0 && size) seen->ends++;
    return got;
}

ssize_t write(int file, const void *from, size_t size) {
    if (file != 1) return syscall(SYS_write, file, from, size);
    uint64_t number = __atomic_add_fetch(&seen->writes, 1, __ATOMIC_SEQ_CST);
    const char *what = told("write", number);
    seen->past_failure += has_failed;
    if (*what >= '0' && *what <= '9') return failed(what);
    if (*what == 'n') {
        has_failed = 1;
        return 0;
    }
    return syscall(SYS_write, file, from, *what == 's' && size ? 1 : size);
}

/* ---- threads */

struct start {
    void *(*run)(void *);
    void *with;
};

static void *started(void *given) {
    struct start start = *(struct start *)given;
    free(given);
    uint64_t now = __atomic_add_fetch(&running, 1, __ATOMIC_SEQ_CST);
    uint64_t most = seen->at_once;
    while (now > most && !__atomic_compare_exchange_n(&seen->at_once, &most, now, 0, __ATOMIC_SEQ_CST, __ATOMIC_SEQ_CST)) {
    }
    for (int turn = 0; turn < 2000 && __atomic_load_n(&seen->at_once, __ATOMIC_SEQ_CST) < meet; turn++) {
        struct timespec time = {0, 1000000};
        nanosleep(&time, 0);
    }
    void *result = start.run(start.with);
    __atomic_sub_fetch(&running, 1, __ATOMIC_SEQ_CST);
    return result;
}

int pthread_create(pthread_t *thread, const pthread_attr_t *how, void *(*run)(void *), void *with) {
    int (*create)(pthread_t *, const pthread_attr_t *, void *(*)(void *), void *) = dlsym(RTLD_NEXT, "pthread_create");
    struct start *start = malloc(sizeof *start);
    if (!create || !start) return EAGAIN;
    *start = (struct start){run, with};
    __atomic_add_fetch(&seen->threads, 1, __ATOMIC_SEQ_CST);
    int result = create(thread, how, started, start);
    if (result) free(start);
    return result;
}
