// A library that is preloaded into a program and makes one of its memory allocations fail, so that a test can check how
// the program handles each failure. REFUSE_COUNT names a file of eight bytes, in which the library counts the allocations.
// The file is mapped into memory, so that the count is preserved even if the program exits suddenly. REFUSE_AT is the number
// of the allocation that must fail (counted from 1), or 0 if none must fail.
//
// This file declares the functions that it calls, so that it can be compiled without the headers of the C library.
typedef __SIZE_TYPE__ size_t;
typedef __UINT64_TYPE__ uint64_t;
#define NULL ((void *)0)
enum { ENOMEM = 12, O_RDWR = 2, PROT_READ_WRITE = 3, MAP_SHARED = 1 }; // values for Linux

int *__errno_location(void);
char *getenv(const char *name);
int open(const char *name, int flags, ...);
void *mmap(void *at, size_t size, int protection, int flags, int file, long offset);
int close(int file);
unsigned long long strtoull(const char *text, char **end, int base);
_Noreturn void _exit(int status);

// The functions in the GNU C library that implement malloc, calloc, realloc and memalign.
void *__libc_malloc(size_t size);
void *__libc_calloc(size_t count, size_t size);
void *__libc_realloc(void *old, size_t size);
void *__libc_memalign(size_t alignment, size_t size);

static volatile uint64_t *calls; // null until the file is mapped; earlier allocations are not made by the program
static uint64_t refused;

__attribute__((constructor)) static void begin(void) {
    const char *name = getenv("REFUSE_COUNT"), *number = getenv("REFUSE_AT");
    int file = name && number ? open(name, O_RDWR) : -1;
    void *map = mmap(NULL, sizeof *calls, PROT_READ_WRITE, MAP_SHARED, file, 0);
    if (map == (void *)-1)
        _exit(99); // the program itself never exits with this status
    close(file);
    refused = strtoull(number, NULL, 10);
    calls = map;
}

static int refuses(void) {
    if (!calls || ++*calls != refused)
        return 0;
    *__errno_location() = ENOMEM;
    return 1;
}

void *malloc(size_t size) { return refuses() ? NULL : __libc_malloc(size); }

void *calloc(size_t count, size_t size) { return refuses() ? NULL : __libc_calloc(count, size); }

void *realloc(void *old, size_t size) { return refuses() ? NULL : __libc_realloc(old, size); }

void *memalign(size_t alignment, size_t size) { return refuses() ? NULL : __libc_memalign(alignment, size); }

void *aligned_alloc(size_t alignment, size_t size) { return memalign(alignment, size); }

int posix_memalign(void **made, size_t alignment, size_t size) {
    void *block = memalign(alignment, size);
    if (block)
        *made = block;
    return block ? 0 : ENOMEM;
}
