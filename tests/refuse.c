/* Makes one call of a process fail, as its environment asks: the REFUSE_NTH-th request for memory, read or write (REFUSE_WHAT: `memory`,
   `read`, `write`), counted from 1. Where that call came, the file REFUSE_TOLD is there afterwards. For refused_memory.py, which loads it
   ahead of the C library. */
#define _GNU_SOURCE
#include <errno.h>
#include <fcntl.h>
#include <stdlib.h>
#include <string.h>
#include <sys/syscall.h>
#include <unistd.h>

extern void *__libc_malloc(size_t);
extern void *__libc_calloc(size_t, size_t);
extern void *__libc_realloc(void *, size_t);

static long met;

/* Whether this call of this kind is the one that fails. */
static int refused(const char *kind) {
    const char *what = getenv("REFUSE_WHAT"), *nth = getenv("REFUSE_NTH"), *told = getenv("REFUSE_TOLD");
    if (!what || !nth || !told || strcmp(what, kind) || ++met != atol(nth)) return 0;
    syscall(SYS_close, syscall(SYS_open, told, O_CREAT | O_WRONLY, 0600));
    return 1;
}

static long failed(int error) {
    errno = error;
    return -1;
}

void *malloc(size_t size) { return refused("memory") ? (errno = ENOMEM, NULL) : __libc_malloc(size); }
void *calloc(size_t count, size_t size) { return refused("memory") ? (errno = ENOMEM, NULL) : __libc_calloc(count, size); }
void *realloc(void *old, size_t size) { return refused("memory") ? (errno = ENOMEM, NULL) : __libc_realloc(old, size); }

ssize_t read(int file, void *room, size_t size) { return refused("read") ? failed(EIO) : syscall(SYS_read, file, room, size); }
ssize_t pread(int file, void *room, size_t size, off_t at) { return refused("read") ? failed(EIO) : syscall(SYS_pread64, file, room, size, at); }
ssize_t pread64(int file, void *room, size_t size, off_t at) { return pread(file, room, size, at); }
ssize_t write(int file, const void *bytes, size_t size) { return refused("write") ? failed(EIO) : syscall(SYS_write, file, bytes, size); }
ssize_t pwrite(int file, const void *bytes, size_t size, off_t at) { return refused("write") ? failed(EIO) : syscall(SYS_pwrite64, file, bytes, size, at); }
ssize_t pwrite64(int file, const void *bytes, size_t size, off_t at) { return pwrite(file, bytes, size, at); }
int fsync(int file) { return refused("write") ? (int) failed(EIO) : (int) syscall(SYS_fsync, file); }
int fdatasync(int file) { return refused("write") ? (int) failed(EIO) : (int) syscall(SYS_fdatasync, file); }
