/* Stands between the tool and the system and runs the shell line INTERPOSE_LINE in the middle of the tool's work, once:
   INTERPOSE_AT says when, such as "lock 1", "read 1" or "flush 3" for after that call, and "write 2" for before it. Reads and
   writes of the three standard files do not count. The tool is the line's parent. */
#define _GNU_SOURCE
#include <dlfcn.h>
#include <errno.h>
#include <stdio.h>
#include <stdlib.h>
#include <string.h>
#include <sys/wait.h>
#include <unistd.h>

typedef ssize_t (*read_call)(int, void *, size_t);
typedef ssize_t (*write_call)(int, const void *, size_t);
typedef int (*flush_call)(int);
typedef int (*lock_call)(int, int);

static void run(const char *line) {
    pid_t child = fork();
    if (child == 0) {
        unsetenv("LD_PRELOAD");
        execl("/bin/sh", "sh", "-c", line, (char *)NULL);
        _exit(127);
    }
    int status = 0;
    while (waitpid(child, &status, 0) < 0 && errno == EINTR) {
    }
    if (child < 0 || status != 0) {
        abort();
    }
}

static void came(const char *call, int *times) {
    const char *at = getenv("INTERPOSE_AT"), *line = getenv("INTERPOSE_LINE");
    char now[40];
    snprintf(now, sizeof now, "%s %d", call, ++*times);
    if (at != NULL && line != NULL && strcmp(at, now) == 0) {
        run(line);
    }
}

int flock(int file, int how) {
    static int locks;
    int failed = ((lock_call)dlsym(RTLD_NEXT, "flock"))(file, how);
    came("lock", &locks);
    return failed;
}

ssize_t read(int file, void *bytes, size_t length) {
    static int reads;
    ssize_t done = ((read_call)dlsym(RTLD_NEXT, "read"))(file, bytes, length);
    if (file > 2) {
        came("read", &reads);
    }
    return done;
}

ssize_t write(int file, const void *bytes, size_t length) {
    static int writes;
    if (file > 2) {
        came("write", &writes);
    }
    return ((write_call)dlsym(RTLD_NEXT, "write"))(file, bytes, length);
}

static int flushes;

int fdatasync(int file) {
    int failed = ((flush_call)dlsym(RTLD_NEXT, "fdatasync"))(file);
    came("flush", &flushes);
    return failed;
}

int fsync(int file) {
    int failed = ((flush_call)dlsym(RTLD_NEXT, "fsync"))(file);
    came("flush", &flushes);
    return failed;
}
