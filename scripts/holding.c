/* Runs a program, and holds its threads before atomic instructions, while the others go on.

   holding SEED TOLD PLACES PROGRAM WORD..

   Each line of PLACES is the address of an instruction, as the file of the program has it. Of the threads that come to one of them, one stands
   still now and then, until the others have passed a number of such places, or none has come to one for a while. So where one thread writes and
   then looks, and another does too, their steps come about in every order, though the two would have to meet within some nanoseconds. A thread that is
   held counts the steps of others and not time, so a busy machine changes little.

   It ends with the status of the program, or with 125 where no program can be traced. The descriptor TOLD is told how often a thread was held. */
#define _GNU_SOURCE
#include <errno.h>
#include <fcntl.h>
#include <signal.h>
#include <stddef.h>
#include <stdio.h>
#include <stdlib.h>
#include <sys/ptrace.h>
#include <sys/user.h>
#include <sys/wait.h>
#include <time.h>
#include <unistd.h>

/* One of ONE_OF threads that come to a place is held, until the others have passed at most MOST places, or for LONGEST microseconds in which none
   came to one. */
enum { MOST_THREADS = 64, ONE_OF = 8, MOST = 128, LONGEST = 2000 };

/* The instruction that stops whoever comes to it. */
static const unsigned char STOP = 0xcc;

struct place {
    unsigned long address;
    unsigned char first; /* the byte in whose place STOP stands */
};

struct thread {
    pid_t id;
    struct place *passing; /* the place whose instruction it takes by itself */
};

static struct place *places;
static size_t place_count;

static struct thread threads[MOST_THREADS];
static int thread_count;

/* The memory of the program. */
static int memory;

/* The thread that is held, or 0; how many places the others have yet to pass; and when one was passed last. */
static pid_t held;
static unsigned long left;
static long passed_at;

static unsigned long drawn;
static long holds;

/* The next number of a sequence that the seed begins (splitmix64). */
static unsigned long draw(void) {
    unsigned long it = drawn += 0x9e3779b97f4a7c15;
    it = (it ^ it >> 30) * 0xbf58476d1ce4e5b9;
    it = (it ^ it >> 27) * 0x94d049bb133111eb;
    return it ^ it >> 31;
}

/* In microseconds. */
static long now(void) {
    struct timespec time;
    clock_gettime(CLOCK_MONOTONIC, &time);
    return time.tv_sec * 1000000 + time.tv_nsec / 1000;
}

static void fail(const char *what) {
    perror(what);
    exit(125);
}

static struct thread *thread_of(pid_t id) {
    for (int at = 0; at < thread_count; at++)
        if (threads[at].id == id) return &threads[at];
    if (thread_count == MOST_THREADS) {
        errno = ENOSPC;
        fail("holding: threads");
    }
    threads[thread_count] = (struct thread){.id = id};
    return &threads[thread_count++];
}

static void forget(pid_t id) {
    if (held == id) held = 0;
    for (int at = 0; at < thread_count; at++)
        if (threads[at].id == id) threads[at] = threads[--thread_count];
}

static void write_at(unsigned long address, unsigned char byte) {
    if (pwrite(memory, &byte, 1, (off_t)address) != 1) fail("holding: memory");
}

static int order(const void *one, const void *other) {
    unsigned long a = ((const struct place *)one)->address, b = ((const struct place *)other)->address;
    return (a > b) - (a < b);
}

static struct place *place_at(unsigned long address) {
    struct place wanted = {.address = address};
    return bsearch(&wanted, places, place_count, sizeof *places, order);
}

/* Reads the places, and has each stop whoever comes to it. */
static void set_places(const char *path, unsigned long base) {
    FILE *file = fopen(path, "r");
    if (!file) fail(path);
    unsigned long address;
    while (fscanf(file, "%lx", &address) == 1) {
        places = realloc(places, (place_count + 1) * sizeof *places);
        if (!places) fail("holding: places");
        struct place *place = &places[place_count++];
        place->address = base + address;
        if (pread(memory, &place->first, 1, (off_t)place->address) != 1) fail("holding: memory");
        write_at(place->address, STOP);
    }
    fclose(file);
    qsort(places, place_count, sizeof *places, order);
}

/* Where the file of the program begins in its memory: it is the first of what was mapped. */
static unsigned long base_of(pid_t program) {
    char path[64];
    unsigned long base;
    snprintf(path, sizeof path, "/proc/%d/maps", program);
    FILE *maps = fopen(path, "r");
    if (!maps || fscanf(maps, "%lx", &base) != 1) fail("holding: maps");
    fclose(maps);
    return base;
}

/* Has a thread take the instruction of a place, and stop behind it. */
static void pass(struct thread *thread, struct place *place) {
    thread->passing = place;
    write_at(place->address, place->first);
    ptrace(PTRACE_SINGLESTEP, thread->id, NULL, NULL);
}

/* A thread has come to a place: it is held there, or passes. */
static void came(struct thread *thread, struct place *place) {
    int is_again = thread->passing == place; /* (another thread had it stop once more) */
    passed_at = now();
    if (!held && !is_again && draw() % ONE_OF == 0) {
        held = thread->id;
        left = 1 + draw() % MOST;
        thread->passing = place;
        holds++;
        return;
    }
    if (held && !is_again) left--;
    pass(thread, place);
}

static void let_go(void) {
    struct thread *thread = thread_of(held);
    held = 0;
    pass(thread, thread->passing);
}

/* What is done where a thread has stopped. */
static void stopped(struct thread *thread, int status) {
    void *next = (void *)offsetof(struct user_regs_struct, rip);
    int why = WSTOPSIG(status), is_event = status >> 16 != 0;
    int how = PTRACE_CONT;
    if (why == SIGTRAP && !is_event) {
        unsigned long behind = (unsigned long)ptrace(PTRACE_PEEKUSER, thread->id, next, NULL);
        struct place *place = place_at(behind - 1);
        if (place) {
            ptrace(PTRACE_POKEUSER, thread->id, next, (void *)place->address);
            came(thread, place);
            return;
        }
        if (thread->passing) write_at(thread->passing->address, STOP);
        thread->passing = NULL;
    } else if (thread->passing) {
        how = PTRACE_SINGLESTEP; /* (a signal came before its instruction was taken) */
    }
    /* (a new thread begins with a stop, and the one that started it stops too) */
    long signal = why == SIGTRAP || why == SIGSTOP ? 0 : why;
    ptrace(how, thread->id, NULL, signal);
}

static int watch(pid_t program) {
    for (;;) {
        if (held && (left == 0 || now() > passed_at + LONGEST)) let_go();
        int status;
        pid_t id = waitpid(-1, &status, __WALL | (held ? WNOHANG : 0));
        if (id == 0) {
            usleep(20);
            continue;
        }
        if (id < 0) {
            if (errno == EINTR) continue;
            fail("holding: waitpid");
        }
        if (WIFSTOPPED(status)) {
            stopped(thread_of(id), status);
            continue;
        }
        forget(id);
        if (id == program) return WIFEXITED(status) ? WEXITSTATUS(status) : 128 + WTERMSIG(status);
    }
}

/* Starts the program, which stops before its first instruction. */
static pid_t started(char **words) {
    pid_t program = fork();
    if (program < 0) fail("holding: fork");
    if (program == 0) {
        if (ptrace(PTRACE_TRACEME, 0, NULL, NULL) != 0) fail("holding: ptrace");
        execvp(words[0], words);
        fail(words[0]);
    }
    int status;
    if (waitpid(program, &status, 0) < 0) fail("holding: waitpid");
    if (!WIFSTOPPED(status)) exit(125);
    long how = PTRACE_O_TRACECLONE | PTRACE_O_EXITKILL;
    if (ptrace(PTRACE_SETOPTIONS, program, NULL, how) != 0) fail("holding: ptrace");
    return program;
}

int main(int argc, char **argv) {
    if (argc < 5) return 125;
    drawn = strtoul(argv[1], NULL, 10) * 0x2545f4914f6cdd1d;
    int told = atoi(argv[2]);
    pid_t program = started(argv + 4);
    char path[64];
    snprintf(path, sizeof path, "/proc/%d/mem", program);
    memory = open(path, O_RDWR);
    if (memory < 0) fail(path);
    set_places(argv[3], base_of(program));
    ptrace(PTRACE_CONT, program, NULL, NULL);
    int ended = watch(program);
    dprintf(told, "%ld\n", holds);
    return ended;
}
