/*
 * Tries the library where a bridge could mix up its calls or lose its files. `try MODE` ends with 0 if every answer is right, and
 * with 1 after a sentence if one is not.
 *   calls    calls one after the other; a standard stream that is closed stays closed
 *   fork     parent and child in turn, each with a device of its own, and a grandchild
 *   threads  two threads at once, and children that the process forks meanwhile
 *   signals  calls while a signal comes every millisecond
 *   lost     calls after every process that the library started was killed: if there is none, the answers are right; if there
 *            is, the process must not come to its end
 */
#define _XOPEN_SOURCE 700
#include <ctype.h>
#include <dirent.h>
#include <errno.h>
#include <fcntl.h>
#include <pthread.h>
#include <signal.h>
#include <stdio.h>
#include <stdlib.h>
#include <string.h>
#include <sys/time.h>
#include <sys/types.h>
#include <sys/wait.h>
#include <unistd.h>

#include "utasiro.h"

static _Noreturn void wrong(const char *what) {
    fprintf(stderr, "try: %s\n", what);
    _exit(1);
}

static void expect(int is_right, const char *what) {
    if (!is_right)
        wrong(what);
}

/* ---- a device whose every answer is known: single pages are written from page 0 on, in order */

enum { BLOCKS = 4, PAGES = 16, LOGICAL = 32, SLOTS = 32, WRITABLE = (BLOCKS - 1) * PAGES };

typedef struct {
    utasiro_head head;
    uint32_t extents[UTASIRO_EXTENT_WORDS(SLOTS)], blocks[UTASIRO_BLOCK_WORDS(BLOCKS)], spare[UTASIRO_SPARE_WORDS(BLOCKS, PAGES)];
    uint32_t written, live;
    /* Where each logical page is. */
    uint32_t at[LOGICAL];
} device;

/* The words of the device d, as they are lent. */
#define STATE \
    d->extents, UTASIRO_EXTENT_WORDS(SLOTS), d->blocks, UTASIRO_BLOCK_WORDS(BLOCKS), d->spare, UTASIRO_SPARE_WORDS(BLOCKS, PAGES)

static void begin(device *d) {
    utasiro_outcome o = utasiro_fresh(BLOCKS, PAGES, LOGICAL, SLOTS, STATE);
    expect(o.refusal == UTASIRO_ACCEPTED && o.head.blocks == BLOCKS && o.head.used == 0, "a fresh device");
    d->head = o.head;
    d->written = d->live = 0;
    for (int l = 0; l < LOGICAL; l++)
        d->at[l] = UTASIRO_HOLE;
}

static utasiro_outcome write_page(device *d, uint64_t number, uint32_t page, uint32_t answer[3]) {
    return utasiro_write(d->head, STATE, number, page, 1, answer, 3);
}

static void is_read(const device *d, uint32_t page) {
    uint32_t answer[3];
    utasiro_outcome o = utasiro_read(d->head, STATE, page, 1, answer, 3);
    expect(o.refusal == UTASIRO_ACCEPTED && o.count == 1, "a read is accepted");
    expect(answer[0] == page && answer[1] == d->at[page] && answer[2] == 1, "a read finds the page where it was written");
}

static void is_recorded(const device *d) {
    uint32_t programmed = 0, mapped = 0;
    for (uint32_t block = 0; block < BLOCKS; block++) {
        programmed += UTASIRO_FILL(d->blocks, block);
        mapped += UTASIRO_VALID(d->blocks, block);
    }
    expect(programmed == d->written && mapped == d->live, "the records of the blocks count right");
}

/* Writes a page, sends the write again, reads, and counts. */
static void step(device *d, uint32_t page) {
    if (d->written == WRITABLE)
        begin(d);
    uint32_t answer[3];
    uint64_t number = d->head.last + 1;
    utasiro_outcome o = write_page(d, number, page, answer);
    expect(o.refusal == UTASIRO_ACCEPTED && o.count == 1 && o.head.last == number, "a write is accepted");
    expect(answer[0] == page && answer[1] == d->written && answer[2] == 1, "a write takes the next page");
    d->head = o.head;
    d->live += d->at[page] == UTASIRO_HOLE;
    d->at[page] = d->written++;
    o = write_page(d, number, page, answer);
    expect(o.refusal == UTASIRO_APPLIED && o.count == 0, "a write sent again is refused");
    is_read(d, page);
    is_read(d, (page + 1) % LOGICAL);
    utasiro_counts c = utasiro_report(d->head, STATE);
    expect(c.refusal == UTASIRO_ACCEPTED && c.free == WRITABLE - d->written && c.live == d->live && c.stale == d->written - d->live,
           "a report counts right");
    is_recorded(d);
}

/* A device in which pages are written `stride` apart. */
static void steps(uint32_t stride, uint32_t count) {
    device d;
    begin(&d);
    for (uint32_t k = 0; k < count; k++)
        step(&d, k * stride % LOGICAL);
}

/* ---- the modes */

static void calls(void) {
    int is_open[3];
    for (int file = 0; file < 3; file++)
        is_open[file] = fcntl(file, F_GETFD) != -1;
    steps(5, 60);
    for (int file = 0; file < 3; file++)
        expect((fcntl(file, F_GETFD) != -1) == is_open[file], "the standard streams are as they were");
}

/* The child ends, and with 0. */
static void is_right(pid_t child) {
    int status;
    pid_t ended;
    do
        ended = waitpid(child, &status, 0);
    while (ended < 0 && errno == EINTR);
    expect(ended == child && WIFEXITED(status) && WEXITSTATUS(status) == 0, "a child's answers are right");
}

static pid_t forked(void) {
    pid_t child = fork();
    expect(child >= 0, "a process can be forked");
    return child;
}

/* One process's turns: waits for its turn, makes a step, and hands the turn over. */
static void turns(device *d, uint32_t stride, int from, int to) {
    char byte;
    for (uint32_t k = 0; k < 40; k++) {
        expect(read(from, &byte, 1) == 1, "the turn comes");
        step(d, k * stride % LOGICAL);
        expect(write(to, &byte, 1) == 1, "the turn is handed over");
    }
}

static void fork_mode(void) {
    device parents, childs;
    int to_child[2], to_parent[2];
    expect(pipe(to_child) == 0 && pipe(to_parent) == 0, "there are pipes");
    begin(&parents);
    step(&parents, 7);
    step(&parents, 3);
    pid_t child = forked();
    if (child == 0) {
        close(to_child[1]);
        close(to_parent[0]);
        begin(&childs);
        turns(&childs, 3, to_child[0], to_parent[1]);
        pid_t grandchild = forked();
        step(&childs, 1);
        if (grandchild != 0)
            is_right(grandchild);
        _exit(0);
    }
    close(to_child[0]);
    close(to_parent[1]);
    char byte = 0;
    expect(write(to_child[1], &byte, 1) == 1, "the first turn is the child's");
    turns(&parents, 11, to_parent[0], to_child[1]);
    is_right(child);
    step(&parents, 9);
}

static void *thread(void *stride) {
    steps(*(uint32_t *)stride, 300);
    return NULL;
}

static void threads(void) {
    uint32_t strides[2] = {3, 7};
    pthread_t made[2];
    for (int k = 0; k < 2; k++)
        expect(pthread_create(&made[k], NULL, thread, &strides[k]) == 0, "there are threads");
    for (uint32_t k = 0; k < 4; k++) {
        pid_t child = forked();
        if (child == 0) {
            steps(2 * k + 1, 20);
            _exit(0);
        }
        steps(2 * k + 5, 5);
        is_right(child);
    }
    for (int k = 0; k < 2; k++)
        expect(pthread_join(made[k], NULL) == 0, "the threads end");
}

static volatile sig_atomic_t came;
static void note(int number) {
    (void)number;
    came++;
}

static void signals(void) {
    struct sigaction action;
    memset(&action, 0, sizeof action);
    action.sa_handler = note;
    struct itimerval each = {{0, 1000}, {0, 1000}}, none = {{0, 0}, {0, 0}};
    expect(sigaction(SIGALRM, &action, NULL) == 0 && setitimer(ITIMER_REAL, &each, NULL) == 0, "there is a timer");
    while (came < 100)
        steps(5, 60);
    expect(setitimer(ITIMER_REAL, &none, NULL) == 0, "the timer is stopped");
}

/* The processes whose parent this one is. */
static void kill_children(void) {
    DIR *all = opendir("/proc");
    expect(all != NULL, "the processes can be listed");
    for (struct dirent *one = readdir(all); one != NULL; one = readdir(all)) {
        char path[300];
        int parent = 0;
        if (!isdigit((unsigned char)one->d_name[0]))
            continue;
        snprintf(path, sizeof path, "/proc/%s/stat", one->d_name);
        FILE *stat = fopen(path, "r");
        if (stat == NULL)
            continue;
        if (fscanf(stat, "%*d (%*[^)]) %*c %d", &parent) == 1 && parent == getpid())
            kill((pid_t)atoi(one->d_name), SIGKILL);
        fclose(stat);
    }
    closedir(all);
}

static void lost(void) {
    device d;
    begin(&d);
    step(&d, 4);
    kill_children();
    step(&d, 5);
}

int main(int count, char **words) {
    static const struct {
        const char *name;
        void (*run)(void);
    } modes[] = {{"calls", calls}, {"fork", fork_mode}, {"threads", threads}, {"signals", signals}, {"lost", lost}};
    for (size_t k = 0; count == 2 && k < sizeof modes / sizeof *modes; k++) {
        if (strcmp(words[1], modes[k].name) == 0) {
            modes[k].run();
            return 0;
        }
    }
    wrong("calls, fork, threads, signals or lost?");
}
