/* Stands between the tool and the system: TERMINALS holds the numbers of the files that are taken for terminals, and each
   flush takes a while. */
#define _GNU_SOURCE
#include <stdlib.h>
#include <string.h>
#include <unistd.h>

int isatty(int file) {
    const char *terminals = getenv("TERMINALS");
    return terminals != NULL && file >= 0 && file <= 9 && strchr(terminals, '0' + file) != NULL;
}

/* Takes 30 milliseconds whatever the disk is like: nothing is flushed. */
int fdatasync(int file) {
    (void)file;
    return usleep(30000);
}
