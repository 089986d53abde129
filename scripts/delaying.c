/* Delays the threads of a program that it is loaded into (LD_PRELOAD). A process of its own picks one of them now and then, at any instruction of its
   code, and has it stand still for a moment, while the others go on. (a thread of its own would be counted by tests that count threads)

   DELAY_SEED=N   which delays: how often, whom, and for how long
   DELAY_TOLD=N   the descriptor that is told at the end how many delays there were

   What sleeps is left alone, since a signal would end a sleep. */
#define _GNU_SOURCE
#include <dirent.h>
#include <errno.h>
#include <fcntl.h>
#include <sched.h>
#include <signal.h>
#include <stdatomic.h>
#include <stdio.h>
#include <stdlib.h>
#include <string.h>
#include <sys/prctl.h>
#include <sys/syscall.h>
#include <unistd.h>

/* No program uses this signal by itself. */
#define DELAY SIGURG

enum { MOST_THREADS = 64, LOOKS = 200 };

static _Atomic unsigned long drawn;
static atomic_long delays;
static int told = -1;

/* The next number of a sequence that the seed begins (splitmix64). */
static unsigned long draw(void) {
    unsigned long it = drawn += 0x9e3779b97f4a7c15;
    it = (it ^ it >> 30) * 0xbf58476d1ce4e5b9;
    it = (it ^ it >> 27) * 0x94d049bb133111eb;
    return it ^ it >> 31;
}

static void turn(unsigned long turns) {
    for (volatile unsigned long at = 0; at < turns; at++) __builtin_ia32_pause();
}

/* What a delayed thread does: it turns for up to some 100 microseconds, mostly for less, or gives its processor away. */
static void stand(int signal) {
    (void)signal;
    int before = errno;
    delays++;
    unsigned long number = draw();
    if (number % 4 == 0) sched_yield();
    else turn(number >> 32 & ((1UL << (4 + (number >> 8) % 8)) - 1));
    errno = before;
}

/* Whether a thread is on a processor, or waits for one. */
static int runs(pid_t process, pid_t thread) {
    char text[128];
    snprintf(text, sizeof text, "/proc/%d/task/%d/stat", process, thread);
    int file = open(text, O_RDONLY | O_CLOEXEC);
    if (file < 0) return 0;
    ssize_t length = read(file, text, sizeof text - 1);
    close(file);
    if (length <= 0) return 0;
    text[length] = '\0';
    const char *state = strrchr(text, ')');
    return state != NULL && state[1] == ' ' && state[2] == 'R';
}

/* The threads of a process. */
static int threads_of(pid_t process, pid_t *threads) {
    char path[32];
    snprintf(path, sizeof path, "/proc/%d/task", process);
    int count = 0;
    DIR *all = opendir(path);
    if (all == NULL) return 0;
    for (struct dirent *entry = readdir(all); entry != NULL && count < MOST_THREADS; entry = readdir(all)) {
        pid_t thread = atoi(entry->d_name);
        if (thread > 0) threads[count++] = thread;
    }
    closedir(all);
    return count;
}

/* What the process does that delays the threads of another, until that is gone. */
static void delay(pid_t process) {
    pid_t threads[MOST_THREADS];
    for (int count = threads_of(process, threads); count > 0; count = threads_of(process, threads)) {
        for (int look = 0; look < LOOKS; look++) {
            pid_t thread = threads[draw() % count];
            if (runs(process, thread)) syscall(SYS_tgkill, process, thread, DELAY);
            turn(draw() % 512);
        }
    }
    syscall(SYS_exit_group, 0);
}

__attribute__((constructor)) static void begin(void) {
    const char *seed = getenv("DELAY_SEED"), *number = getenv("DELAY_TOLD");
    if (seed == NULL) return;
    if (number != NULL) told = atoi(number);
    drawn = strtoul(seed, NULL, 10) * 0x2545f4914f6cdd1d;
    struct sigaction action = {.sa_handler = stand, .sa_flags = SA_RESTART};
    pid_t process = getpid();
    if (sigaction(DELAY, &action, NULL) != 0 || fork() != 0) return;
    /* (it goes with the program, and keeps none of its files open) */
    prctl(PR_SET_PDEATHSIG, SIGKILL);
    for (int file = 0; file < 64; file++) close(file);
    delay(process);
}

/* (a Rattle program ends by this) */
void _exit(int status) {
    char line[32];
    int length = snprintf(line, sizeof line, "%ld\n", (long)delays);
    if (told >= 0) syscall(SYS_write, told, line, length);
    syscall(SYS_exit_group, status);
    __builtin_unreachable();
}
