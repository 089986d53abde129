/* Tells which of these functions of the C library a program calls that it is loaded into (LD_PRELOAD): for each call a line with the function's
   name, written to the descriptor that ASKING_TOLD names. The calls are made all the same. */
#define _GNU_SOURCE
#include <stdlib.h>
#include <string.h>
#include <sys/syscall.h>
#include <sys/types.h>
#include <unistd.h>

static void tell(const char *name) {
    const char *descriptor = getenv("ASKING_TOLD");
    char line[32];
    size_t length = strlen(name);
    memcpy(line, name, length);
    line[length] = '\n';
    if (descriptor != NULL) syscall(SYS_write, atoi(descriptor), line, length + 1);
}

int fsync(int file) {
    tell("fsync");
    return (int)syscall(SYS_fsync, file);
}

int fdatasync(int file) {
    tell("fdatasync");
    return (int)syscall(SYS_fdatasync, file);
}

int ftruncate(int file, off_t size) {
    tell("ftruncate");
    return (int)syscall(SYS_ftruncate, file, size);
}

int rename(const char *from, const char *to) {
    tell("rename");
    return (int)syscall(SYS_rename, from, to);
}
