/* Refuses allocations of a program, or fails its reads or writes, as bench/faults.py asks: loaded before the C library by LD_PRELOAD.
   The driver and the program share one page, the file that FAULTS_PAGE names. */
#define _GNU_SOURCE
#include <errno.h>
#include <fcntl.h>
#include <stdint.h>
#include <stdlib.h>
#include <string.h>
#include <sys/mman.h>
#include <sys/syscall.h>
#include <sys/types.h>
#include <unistd.h>

extern void *__libc_malloc(size_t);
extern void *__libc_calloc(size_t, size_t);
extern void *__libc_realloc(void *, size_t);
extern void *__libc_memalign(size_t, size_t);

static struct {
    volatile uint64_t asked;     /* allocations that were asked for so far */
    volatile uint64_t first;     /* those from this one, counted from 1, to `last` are refused; 0: none */
    volatile uint64_t last;
    volatile uint64_t refused;   /* how many were refused */
    volatile uint64_t waiting;   /* 1 while standard input is being read */
    volatile uint64_t read_limit;  /* standard input fails behind so many bytes less one; 0: never */
    volatile uint64_t was_read;
    volatile uint64_t write_limit; /* standard output fails behind so many bytes less one; 0: never */
    volatile uint64_t written;
} *page;

__attribute__((constructor)) static void begin(void) {
    const char *name = getenv("FAULTS_PAGE");
    int file = name ? open(name, O_RDWR) : -1;
    if (file < 0) return;
    void *found = mmap(0, 4096, PROT_READ | PROT_WRITE, MAP_SHARED, file, 0);
    if (found != MAP_FAILED) page = found;
    close(file);
}

static int is_refused(void) {
    if (!page) return 0;
    uint64_t number = ++page->asked;
    if (!page->first || number < page->first || number > page->last) return 0;
    page->refused++;
    errno = ENOMEM;
    return 1;
}

void *malloc(size_t size) { return is_refused() ? 0 : __libc_malloc(size); }
void *calloc(size_t count, size_t size) { return is_refused() ? 0 : __libc_calloc(count, size); }
void *realloc(void *old, size_t size) { return is_refused() ? 0 : __libc_realloc(old, size); }
void *memalign(size_t align, size_t size) { return is_refused() ? 0 : __libc_memalign(align, size); }
void *aligned_alloc(size_t align, size_t size) { return is_refused() ? 0 : __libc_memalign(align, size); }

int posix_memalign(void **to, size_t align, size_t size) {
    if (is_refused()) return ENOMEM;
    void *made = __libc_memalign(align, size);
    if (!made) return ENOMEM;
    *to = made;
    return 0;
}

/* How many of so many bytes may still be moved. */
static size_t allowed(uint64_t limit, uint64_t moved, size_t size) {
    if (!limit) return size;
    uint64_t left = limit - 1 > moved ? limit - 1 - moved : 0;
    return size < left ? size : left;
}

ssize_t read(int file, void *to, size_t size) {
    if (!page || file != 0) return syscall(SYS_read, file, to, size);
    size_t most = allowed(page->read_limit, page->was_read, size);
    if (size && !most) return errno = EIO, -1;
    page->waiting = 1;
    ssize_t got = syscall(SYS_read, file, to, most);
    page->waiting = 0;
    if (got > 0) page->was_read += got;
    return got;
}

ssize_t write(int file, const void *from, size_t size) {
    if (!page || file != 1) return syscall(SYS_write, file, from, size);
    size_t most = allowed(page->write_limit, page->written, size);
    if (size && !most) return errno = EIO, -1;
    ssize_t put = syscall(SYS_write, file, from, most);
    if (put > 0) page->written += put;
    return put;
}
