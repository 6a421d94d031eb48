// What the program takes from outside, for WebAssembly in a page: memory, bytes in and out, words. It decides nothing: each answer is
// the program's own. There are no threads here, no files and no environment, and whoever asks for them is told so.
// page/host.js has the other half: the four functions that are imported.

typedef unsigned char byte;
typedef unsigned long size;
typedef long word;

#define IMPORT(NAME) __attribute__((import_module("env"), import_name(#NAME)))
IMPORT(host_read) word host_read(void *to, size most);
IMPORT(host_write) word host_write(int stream, const void *from, size count);
IMPORT(host_exit) _Noreturn void host_exit(int status);
IMPORT(host_arg) word host_arg(size number, void *to, size most);

// ------------------------------------------------------------------------------------------------------------------ memory
// Blocks of some sizes, four to each doubling, with a list of free blocks for each size. Before each block stands the number of its
// size. Memory that was once taken for a size stays of that size; a call ends before that matters.

enum { UNIT = 16, SMALL = 4, SIZES = 160, PAGE = 65536 };
static const size MOST_BYTES = (size)1 << 40;
static const size GROW_BYTES = (size)16 << 20;

extern byte __heap_base;
static byte *next_free, *heap_end;
static void *free_blocks[SIZES];

static int size_number(size bytes) {
    if (bytes <= SMALL * UNIT) return bytes == 0 ? 0 : (int)((bytes - 1) / UNIT);
    int shift = 61 - __builtin_clzl(bytes - 1);
    return SMALL + (shift - 4) * 4 + (int)((bytes - 1) >> shift) - 4;
}
static size bytes_of(int number) {
    if (number < SMALL) return (size)(number + 1) * UNIT;
    return (size)((number - SMALL) % 4 + 5) << ((number - SMALL) / 4 + 4);
}
static int is_grown(size bytes) {
    size pages = (bytes + PAGE - 1) / PAGE;
    if (__builtin_wasm_memory_grow(0, pages) == (size)-1) return 0;
    heap_end += pages * PAGE;
    return 1;
}
static void *new_block(int number) {
    if (!next_free) {
        next_free = (byte *)(((size)&__heap_base + UNIT - 1) / UNIT * UNIT);
        heap_end = (byte *)(__builtin_wasm_memory_size(0) * PAGE);
    }
    size whole = UNIT + bytes_of(number), room = (size)(heap_end - next_free);
    if (whole > room && !is_grown(whole - room > GROW_BYTES ? whole - room : GROW_BYTES) && !is_grown(whole - room)) return 0;
    *(size *)next_free = (size)number;
    void *block = next_free + UNIT;
    next_free += whole;
    return block;
}
static int *number_of(void *block) { return (int *)((byte *)block - UNIT); }

void *malloc(size bytes) {
    if (bytes > MOST_BYTES) return 0;
    int number = size_number(bytes);
    void *block = free_blocks[number];
    if (!block) return new_block(number);
    free_blocks[number] = *(void **)block;
    return block;
}
void free(void *block) {
    if (!block) return;
    int number = *number_of(block);
    *(void **)block = free_blocks[number];
    free_blocks[number] = block;
}

typedef struct { size is_there; void *block; } allocated;
static byte nothing[UNIT];

static allocated answered(void *block) { return (allocated){block != 0, block ? block : nothing}; }

allocated rattle_alloc(size bytes, size alignment) { return answered(alignment > UNIT ? 0 : malloc(bytes)); }
void rattle_dealloc(void *block) { free(block); }
allocated rattle_realloc(void *block, size before, size bytes, size alignment) {
    if (bytes <= bytes_of(*number_of(block))) return answered(block);
    void *other = alignment > UNIT ? 0 : malloc(bytes);
    if (other) {
        __builtin_memcpy(other, block, before);
        free(block);
    }
    return answered(other);
}

void *memset(void *to, int value, size count) { return __builtin_memset(to, value, count); }
void *memmove(void *to, const void *from, size count) { return __builtin_memmove(to, from, count); }
void *memcpy(void *to, const void *from, size count) { return __builtin_memcpy(to, from, count); }
int memcmp(const void *one, const void *other, size count) {
    const byte *left = one, *right = other;
    for (size at = 0; at < count; at++)
        if (left[at] != right[at]) return left[at] - right[at];
    return 0;
}
int bcmp(const void *one, const void *other, size count) { return memcmp(one, other, count); }

// ---------------------------------------------------------------------------------------------------- bytes, words, the end

enum { TRY_AGAIN = 11, ILLEGAL_SEEK = 29 };
static int last_error;

void rattle_set_errno(int error) { last_error = error; }
int rattle_errno(void) { return last_error; }
word read(int stream, void *to, size most) { return host_read(to, most); }
word write(int stream, const void *from, size count) { return host_write(stream, from, count); }
word lseek(int stream, word offset, int whence) {
    last_error = ILLEGAL_SEEK;
    return -1;
}
word rattle_arg(size number, void *to, size most) { return host_arg(number, to, most); }
word rattle_env_at(size number, void *to, size most) { return -1; }
word rattle_env(void *name, void *to, size most) { return -1; }
word __sysv_signal(int signal, word handler) { return 0; }
_Noreturn void _exit(int status) { host_exit(status); }
_Noreturn void abort(void) { __builtin_trap(); }

int main(void);
__attribute__((export_name("start"))) int start(void) { return main(); }

// ----------------------------------------------------------------------------------------------------------------- threads

int pthread_create(void *thread, void *attributes, void *body, void *given) { return TRY_AGAIN; }
int pthread_attr_init(void *attributes) { return 0; }
int pthread_attr_setguardsize(void *attributes, size bytes) { return 0; }
int pthread_attr_setstacksize(void *attributes, size bytes) { return 0; }
int pthread_attr_destroy(void *attributes) { return 0; }
size pthread_self(void) { return 1; }
int pthread_detach(size thread) { return 0; }
int pthread_join(size thread, void *result) { return 0; }
int sched_yield(void) { return 0; }
word syscall(word number, void *at, word operation, word value, void *timeout, ...) { return 0; }

// ----------------------------------------------------------------------------------------------- products of 128-bit numbers

typedef unsigned __int128 wide;

static wide product(size one, size other) {
    const size low = 0xffffffff;
    size parts = (one & low) * (other & low);
    size first = (one >> 32) * (other & low) + (parts >> 32), second = (one & low) * (other >> 32) + (first & low);
    size high = (one >> 32) * (other >> 32) + (first >> 32) + (second >> 32);
    return (wide)high << 64 | (second << 32 | (parts & low));
}
__int128 __multi3(__int128 one, __int128 other) {
    size high = (size)((wide)one >> 64) * (size)other + (size)one * (size)((wide)other >> 64);
    return (__int128)(product((size)one, (size)other) + ((wide)high << 64));
}
