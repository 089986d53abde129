/* Refuses memory and threads to a program that it is loaded into (LD_PRELOAD), and tells how many of each were asked for.

   REFUSE_PIECES=FROM-TO   the pieces of memory that are refused, by their numbers from 1: all from FROM on where nothing is behind the `-`
   REFUSE_STARTS=FROM-TO   the same of starts of threads
   REFUSE_WHOLE=1          counts from the program's beginning on
   REFUSE_TOLD=N           the descriptor that is told at the end: the pieces and the starts that were counted, and how many requests were refused

   Else the program says by lines of its output from where on it is counted (`-- counted`), from where on all is refused (`-- refused`), and from
   where on nothing is (`-- granted`). */
#define _GNU_SOURCE
#include <dlfcn.h>
#include <errno.h>
#include <pthread.h>
#include <stdatomic.h>
#include <stddef.h>
#include <stdio.h>
#include <stdlib.h>
#include <string.h>
#include <sys/syscall.h>
#include <unistd.h>

enum mode { GRANTED, COUNTED, REFUSED };

struct asked {
    atomic_long count;
    long from, to;
};

static _Atomic enum mode mode;
static struct asked pieces, starts;
static atomic_long refusals;
static int told = -1;

/* (the C library's own names, since a look-up would take memory) */
extern void *__libc_malloc(size_t size);
extern void *__libc_calloc(size_t count, size_t size);
extern void *__libc_realloc(void *piece, size_t size);
extern void *__libc_memalign(size_t alignment, size_t size);

static int (*create)(pthread_t *, const pthread_attr_t *, void *(*)(void *), void *);

static void choose(struct asked *asked, const char *range) {
    if (range == NULL) return;
    char *behind;
    asked->from = strtol(range, &behind, 10);
    asked->to = behind[0] == '-' && behind[1] != '\0' ? strtol(behind + 1, NULL, 10) : __LONG_MAX__;
}

__attribute__((constructor)) static void begin(void) {
    create = dlsym(RTLD_NEXT, "pthread_create");
    choose(&pieces, getenv("REFUSE_PIECES"));
    choose(&starts, getenv("REFUSE_STARTS"));
    const char *number = getenv("REFUSE_TOLD");
    if (number != NULL) told = atoi(number);
    if (getenv("REFUSE_WHOLE") != NULL) mode = COUNTED;
}

static int is_refused(struct asked *asked) {
    enum mode now = mode;
    if (now == GRANTED) return 0;
    long number = ++asked->count;
    int refused = now == REFUSED || (asked->from > 0 && asked->from <= number && number <= asked->to);
    if (refused) refusals++;
    return refused;
}

/* no memory */
static void *none(void) {
    errno = ENOMEM;
    return NULL;
}

void *malloc(size_t size) {
    return is_refused(&pieces) ? none() : __libc_malloc(size);
}

void *calloc(size_t count, size_t size) {
    return is_refused(&pieces) ? none() : __libc_calloc(count, size);
}

void *realloc(void *piece, size_t size) {
    return is_refused(&pieces) ? none() : __libc_realloc(piece, size);
}

void *aligned_alloc(size_t alignment, size_t size) {
    return is_refused(&pieces) ? none() : __libc_memalign(alignment, size);
}

int posix_memalign(void **piece, size_t alignment, size_t size) {
    *piece = aligned_alloc(alignment, size);
    return *piece == NULL ? ENOMEM : 0;
}

int pthread_create(pthread_t *thread, const pthread_attr_t *attributes, void *(*routine)(void *), void *argument) {
    return is_refused(&starts) ? EAGAIN : create(thread, attributes, routine, argument);
}

static int says(const char *text, size_t size, const char *line) {
    return size >= strlen(line) && memcmp(text, line, strlen(line)) == 0;
}

ssize_t write(int descriptor, const void *text, size_t size) {
    if (descriptor == 1 && says(text, size, "-- granted")) mode = GRANTED;
    ssize_t written = syscall(SYS_write, descriptor, text, size);
    if (descriptor == 1 && says(text, size, "-- counted")) mode = COUNTED;
    if (descriptor == 1 && says(text, size, "-- refused")) mode = REFUSED;
    return written;
}

ssize_t __write(int descriptor, const void *text, size_t size) {
    return write(descriptor, text, size);
}

/* (a Rattle program ends by this) */
void _exit(int status) {
    char line[96];
    int length = snprintf(line, sizeof line, "%ld %ld %ld\n", (long)pieces.count, (long)starts.count, (long)refusals);
    if (told >= 0) syscall(SYS_write, told, line, length);
    syscall(SYS_exit_group, status);
    __builtin_unreachable();
}
