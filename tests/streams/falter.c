/* Reads and writes that move few bytes or fail. It is loaded before the C library, by LD_PRELOAD, and stands in front
   of read and write.

       FALTER_PIECE                how many bytes a call moves at most; without it as many as it can
       FALTER_READ, FALTER_WRITE   the call that fails, as a number from 1; without it none does
       FALTER_REPORT               a file of at least 24 bytes, which takes how many reads and how many writes there
                                   were, and how many of them failed

   Standard error never fails, and its writes are not counted. It is for programs of one thread. */
#include <errno.h>
#include <fcntl.h>
#include <stdint.h>
#include <stdlib.h>
#include <sys/mman.h>
#include <sys/syscall.h>
#include <unistd.h>

struct report {
    uint64_t reads;
    uint64_t writes;
    uint64_t failed;
};

/* Where the counts go. What is read before the program begins stays in `before`. */
static struct report before;
static struct report *report = &before;
static uint64_t piece;
static uint64_t failing_read;
static uint64_t failing_write;

static uint64_t number(const char *name) {
    const char *text = getenv(name);
    return text ? strtoull(text, NULL, 10) : 0;
}

/* The counts lie in a mapped file, so that they are there however the program ends. */
__attribute__((constructor)) static void begin(void) {
    const char *path = getenv("FALTER_REPORT");
    int file = path ? open(path, O_RDWR | O_CLOEXEC) : -1;
    void *shared = mmap(NULL, sizeof *report, PROT_READ | PROT_WRITE, MAP_SHARED, file, 0);
    if (shared == MAP_FAILED)
        _exit(125);
    close(file);
    report = shared;
    piece = number("FALTER_PIECE");
    failing_read = number("FALTER_READ");
    failing_write = number("FALTER_WRITE");
}

/* Counts a call, and says whether it fails. */
static int fails(uint64_t *calls, uint64_t failing) {
    if (++*calls != failing)
        return 0;
    report->failed++;
    errno = EIO;
    return 1;
}

static size_t moved(size_t size) {
    return piece != 0 && piece < size ? piece : size;
}

ssize_t read(int file, void *place, size_t size) {
    return fails(&report->reads, failing_read) ? -1 : syscall(SYS_read, file, place, moved(size));
}

ssize_t write(int file, const void *place, size_t size) {
    if (file != STDERR_FILENO && fails(&report->writes, failing_write))
        return -1;
    return syscall(SYS_write, file, place, moved(size));
}
