/* An allocator that counts a program's requests for memory and refuses some of them. It is loaded
   before the C library, by LD_PRELOAD, and stands in front of malloc and its kin.

       REFUSE_FIRST, REFUSE_LAST   the requests that are refused, as numbers from 1; without them none is
       REFUSE_REPORT               a file of at least 16 bytes, which takes how many requests there were,
                                   and how many of them were refused

   It is for programs of one thread. */
#include <errno.h>
#include <fcntl.h>
#include <stdint.h>
#include <stdlib.h>
#include <sys/mman.h>
#include <unistd.h>

/* The C library's own allocator under its second names: looking up the first ones by dlsym would
   itself ask for memory. */
extern void *__libc_malloc(size_t size);
extern void *__libc_calloc(size_t count, size_t size);
extern void *__libc_realloc(void *old, size_t size);
extern void *__libc_memalign(size_t alignment, size_t size);

struct report {
    uint64_t requests;
    uint64_t refused;
};

/* Where the counts go. What the loader asks for before the program begins stays in `before`. */
static struct report before;
static struct report *report = &before;
static uint64_t first;
static uint64_t last;

static uint64_t number(const char *name) {
    const char *text = getenv(name);
    return text ? strtoull(text, NULL, 10) : 0;
}

/* Runs after the C library's own beginning, and asks for no memory. The counts lie in a mapped file,
   so that they are there however the program ends. */
__attribute__((constructor)) static void begin(void) {
    const char *path = getenv("REFUSE_REPORT");
    int file = path ? open(path, O_RDWR | O_CLOEXEC) : -1;
    void *shared = mmap(NULL, sizeof *report, PROT_READ | PROT_WRITE, MAP_SHARED, file, 0);
    if (shared == MAP_FAILED)
        _exit(125);
    close(file);
    report = shared;
    first = number("REFUSE_FIRST");
    last = number("REFUSE_LAST");
}

/* Counts a request, and says whether it is refused. */
static int refuses(void) {
    uint64_t request = ++report->requests;
    if (request < first || last < request)
        return 0;
    report->refused++;
    errno = ENOMEM;
    return 1;
}

void *malloc(size_t size) {
    return refuses() ? NULL : __libc_malloc(size);
}

void *calloc(size_t count, size_t size) {
    return refuses() ? NULL : __libc_calloc(count, size);
}

/* To 0 bytes is another way to free, and no request. */
void *realloc(void *old, size_t size) {
    if (old != NULL && size == 0)
        return __libc_realloc(old, size);
    return refuses() ? NULL : __libc_realloc(old, size);
}

void *aligned_alloc(size_t alignment, size_t size) {
    return refuses() ? NULL : __libc_memalign(alignment, size);
}

/* Unlike the others it answers the error and leaves errno as it was. */
int posix_memalign(void **place, size_t alignment, size_t size) {
    int kept = errno;
    void *memory = aligned_alloc(alignment, size);
    errno = kept;
    if (memory == NULL)
        return ENOMEM;
    *place = memory;
    return 0;
}
