/* Stands between the example and the system: says each write and each flush, and then makes it. */
#define _POSIX_C_SOURCE 200809L
#include <stdio.h>
#include <unistd.h>

ssize_t __real_pwrite(int file, const void *from, size_t len, off_t at);
ssize_t __wrap_pwrite(int file, const void *from, size_t len, off_t at);
int __real_fsync(int file);
int __wrap_fsync(int file);

ssize_t __wrap_pwrite(int file, const void *from, size_t len, off_t at) {
    fprintf(stderr, "write %lu at %ld\n", (unsigned long)len, (long)at);
    return __real_pwrite(file, from, len, at);
}

int __wrap_fsync(int file) {
    fprintf(stderr, "flush\n");
    return __real_fsync(file);
}
