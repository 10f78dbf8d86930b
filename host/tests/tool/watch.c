/* Stands between the tool and the system and notes each write to a file, each flush of a file or a folder, and each name that
   a file is given, in a file that WATCH names. */
#define _GNU_SOURCE
#include <dlfcn.h>
#include <fcntl.h>
#include <stdarg.h>
#include <stdio.h>
#include <stdlib.h>
#include <string.h>
#include <sys/stat.h>
#include <unistd.h>

typedef ssize_t (*write_call)(int, const void *, size_t);
typedef int (*flush_call)(int);
typedef int (*name_call)(const char *, const char *);
typedef int (*name_at_call)(int, const char *, int, const char *, int);

static void note(const char *format, ...) {
    char line[300];
    va_list values;
    va_start(values, format);
    int length = vsnprintf(line, sizeof line, format, values);
    va_end(values);
    int notes = open(getenv("WATCH"), O_WRONLY | O_CREAT | O_APPEND, 0600);
    if (notes < 0 || ((write_call)dlsym(RTLD_NEXT, "write"))(notes, line, (size_t)length) != length) {
        abort();
    }
    close(notes);
}

ssize_t write(int file, const void *bytes, size_t length) {
    if (file > 2) {
        note("write %zu at %ld\n", length, (long)lseek(file, 0, SEEK_CUR));
    }
    return ((write_call)dlsym(RTLD_NEXT, "write"))(file, bytes, length);
}

int fdatasync(int file) {
    note("flush\n");
    return ((flush_call)dlsym(RTLD_NEXT, "fdatasync"))(file);
}

int fsync(int file) {
    struct stat found;
    note(fstat(file, &found) == 0 && S_ISDIR(found.st_mode) ? "flush folder\n" : "flush\n");
    return ((flush_call)dlsym(RTLD_NEXT, "fsync"))(file);
}

/* Notes the last part of a path that a file was given as its name, if it was. */
static int named(int failed, const char *path) {
    if (!failed) {
        const char *slash = strrchr(path, '/');
        note("name %s\n", slash == NULL ? path : slash + 1);
    }
    return failed;
}

int rename(const char *old, const char *new) {
    return named(((name_call)dlsym(RTLD_NEXT, "rename"))(old, new), new);
}

int link(const char *old, const char *new) {
    return named(((name_call)dlsym(RTLD_NEXT, "link"))(old, new), new);
}

int linkat(int old_folder, const char *old, int new_folder, const char *new, int flags) {
    return named(((name_at_call)dlsym(RTLD_NEXT, "linkat"))(old_folder, old, new_folder, new, flags), new);
}
