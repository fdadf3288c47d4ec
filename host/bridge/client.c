/*
 * The near side of the bridge: a library of the same interface, for the machine that it is compiled on. It copies what is lent
 * into memory that it shares with a server, has the call made there, and copies back. A server makes one call at a time, so
 * calls that threads make at once have a server each. A process has only servers that it started itself: after a fork both
 * processes go on, and neither's calls reach the other's. The interface has no way to say that a call could not be made: then
 * standard error says why, and the process is aborted.
 */
#define _GNU_SOURCE
#include <errno.h>
#include <fcntl.h>
#include <pthread.h>
#include <spawn.h>
#include <stdarg.h>
#include <stdio.h>
#include <stdlib.h>
#include <string.h>
#include <sys/mman.h>
#include <sys/socket.h>
#include <sys/wait.h>
#include <unistd.h>

#include "wire.h"

static _Noreturn void die(const char *form, ...) {
    va_list words;
    va_start(words, form);
    fputs("the bridge to the library: ", stderr);
    vfprintf(stderr, form, words);
    fputc('\n', stderr);
    va_end(words);
    abort();
}

typedef struct server {
    struct server *next;
    int is_busy;
    int line;
    pid_t process;
    bridge_call *shared;
} server;

/* The servers of process `owner`, all behind the lock. */
static pthread_mutex_t lock = PTHREAD_MUTEX_INITIALIZER;
static server *servers;
static pid_t owner;

/* ---- starting a server */

/*
 * The same file at a number that neither a program nor the server counts on, closed in every program that this one becomes or
 * starts. What was opened in the place of a closed standard stream may not stay there.
 */
static int apart(int file) {
    int moved = file < 0 ? file : fcntl(file, F_DUPFD_CLOEXEC, SHARED_FILE + 1);
    if (moved >= 0)
        close(file);
    return moved;
}

/*
 * The server has its end of the line as standard input and output, the shared memory, the standard error of this process if
 * there is one, and no other file. In a group of its own it is not ended by what is typed at a terminal to interrupt the program.
 */
static pid_t spawn(int line, int memory) {
    posix_spawn_file_actions_t files;
    posix_spawnattr_t how;
    char *const arguments[] = {SERVER, NULL};
    pid_t process;
    if (posix_spawn_file_actions_init(&files) != 0 || posix_spawn_file_actions_adddup2(&files, line, 0) != 0 ||
        posix_spawn_file_actions_adddup2(&files, line, 1) != 0 ||
        posix_spawn_file_actions_adddup2(&files, memory, SHARED_FILE) != 0 ||
        posix_spawn_file_actions_addclosefrom_np(&files, SHARED_FILE + 1) != 0 || posix_spawnattr_init(&how) != 0 ||
        posix_spawnattr_setflags(&how, POSIX_SPAWN_SETPGROUP) != 0)
        die("no memory to start the server %s", SERVER);
    int error = posix_spawn(&process, SERVER, &files, &how, arguments, environ);
    if (error != 0)
        die("the server %s cannot be started: %s", SERVER, strerror(error));
    posix_spawn_file_actions_destroy(&files);
    posix_spawnattr_destroy(&how);
    return process;
}

static server *start(void) {
    server *made = malloc(sizeof *made);
    int memory = apart(memfd_create("utasiro", MFD_CLOEXEC));
    if (made == NULL || memory < 0 || ftruncate(memory, SHARED_BYTES) != 0)
        die("no memory to share with the server %s: %s", SERVER, strerror(errno));
    made->shared = mmap(NULL, SHARED_BYTES, PROT_READ | PROT_WRITE, MAP_SHARED, memory, 0);
    if (made->shared == MAP_FAILED)
        die("the memory to share with the server %s cannot be mapped: %s", SERVER, strerror(errno));
    int ends[2];
    if (socketpair(AF_UNIX, SOCK_STREAM | SOCK_CLOEXEC, 0, ends) != 0 || (ends[0] = apart(ends[0])) < 0 ||
        (ends[1] = apart(ends[1])) < 0)
        die("no line to the server %s: %s", SERVER, strerror(errno));
    made->process = spawn(ends[1], memory);
    made->line = ends[0];
    close(ends[1]);
    close(memory);
    return made;
}

/* ---- whose servers they are */

/* In a new process: leaves the servers to the old one. What a call is using stays where it is. */
static void leave_servers(void) {
    while (servers != NULL) {
        server *left = servers;
        servers = left->next;
        close(left->line);
        if (!left->is_busy) {
            munmap(left->shared, SHARED_BYTES);
            free(left);
        }
    }
}

/* No server is being started while the process forks, so each process knows which files are of servers. */
static void before_fork(void) { pthread_mutex_lock(&lock); }
static void in_parent(void) { pthread_mutex_unlock(&lock); }
static void in_child(void) {
    leave_servers();
    pthread_mutex_unlock(&lock);
}

/* Before the program begins: a fork may come while the first call is being made. */
__attribute__((constructor)) static void watch_forks(void) {
    if (pthread_atfork(before_fork, in_parent, in_child) != 0)
        die("no memory to be told of a fork");
}

/* A server for one call. A process that was not made by fork() is told by its number. */
static server *take(void) {
    pthread_mutex_lock(&lock);
    if (owner != getpid())
        leave_servers();
    owner = getpid();
    server *free_one = servers;
    while (free_one != NULL && free_one->is_busy)
        free_one = free_one->next;
    if (free_one == NULL) {
        free_one = start();
        free_one->next = servers;
        servers = free_one;
    }
    free_one->is_busy = 1;
    pthread_mutex_unlock(&lock);
    return free_one;
}

static void give_back(server *used) {
    pthread_mutex_lock(&lock);
    used->is_busy = 0;
    pthread_mutex_unlock(&lock);
}

/* ---- a call */

/* Says how the server ended. */
static _Noreturn void lost(const server *used) {
    int status;
    pid_t ended;
    do
        ended = waitpid(used->process, &status, 0);
    while (ended < 0 && errno == EINTR);
    if (ended == used->process && WIFSIGNALED(status))
        die("the server %s was ended by signal %d, %s", SERVER, WTERMSIG(status), strsignal(WTERMSIG(status)));
    if (ended == used->process && WIFEXITED(status))
        die("the server %s has ended with status %d", SERVER, WEXITSTATUS(status));
    die("the server %s has ended", SERVER);
}

/* Has the call that stands in the shared memory made: a byte there, and one back. */
static void ask(const server *used) {
    char byte = 0;
    ssize_t moved;
    do
        moved = send(used->line, &byte, 1, MSG_NOSIGNAL);
    while (moved < 0 && errno == EINTR);
    if (moved != 1)
        lost(used);
    do
        moved = recv(used->line, &byte, 1, 0);
    while (moved < 0 && errno == EINTR);
    if (moved != 1)
        lost(used);
}

typedef struct {
    const uint32_t *words;
    /* Null for a buffer that is only read. */
    uint32_t *back;
    size_t len;
} lent;

static void copy_there(server *used, const lent buffers[BUFFERS]) {
    uint32_t *next = (uint32_t *)used->shared + FIRST_WORD;
    for (int k = 0; k < BUFFERS; k++) {
        *next++ = GUARD;
        memcpy(next, buffers[k].words, 4 * buffers[k].len);
        next += buffers[k].len;
    }
    *next = GUARD;
}

static void copy_back(const server *used, const lent buffers[BUFFERS]) {
    const uint32_t *next = (const uint32_t *)used->shared + FIRST_WORD;
    for (int k = 0; k < BUFFERS; k++) {
        if (*next++ != GUARD)
            die("a word outside the buffers changed");
        if (buffers[k].back != NULL)
            memcpy(buffers[k].back, next, 4 * buffers[k].len);
        else if (memcmp(buffers[k].words, next, 4 * buffers[k].len) != 0)
            die("a buffer that is only read changed");
        next += buffers[k].len;
    }
    if (*next != GUARD)
        die("a word outside the buffers changed");
}

static bridge_call make(bridge_call call, const lent buffers[BUFFERS]) {
    size_t left = MOST_WORDS - (BUFFERS + 1);
    for (int k = 0; k < BUFFERS; k++) {
        if (buffers[k].len > left)
            die("more words are lent than the %d that it holds", MOST_WORDS - (BUFFERS + 1));
        left -= buffers[k].len;
        call.lengths[k] = buffers[k].len;
    }
    server *used = take();
    *used->shared = call;
    copy_there(used, buffers);
    ask(used);
    copy_back(used, buffers);
    call = *used->shared;
    give_back(used);
    return call;
}

/* A buffer to be read and written, one to be read only, and none. */
#define BOTH(words, len) {words, words, len}
#define ONLY(words, len) {words, NULL, len}
static const uint32_t no_words;
#define NONE {&no_words, NULL, 0}

/* The words of records: where there is no such number, more than are held. */
static size_t words_of(size_t records) { return records > SIZE_MAX / 3 ? SIZE_MAX : 3 * records; }

uint32_t utasiro_version(void) {
    lent buffers[] = {NONE, NONE, NONE, NONE};
    bridge_call call = {.kind = VERSION};
    return make(call, buffers).count;
}

utasiro_outcome utasiro_fresh(uint32_t blocks, uint32_t pages, uint32_t logical, uint32_t slots, uint32_t *extents,
                              size_t extents_len, uint32_t *blocks_words, size_t blocks_len, uint32_t *spare, size_t spare_len) {
    lent buffers[] = {BOTH(extents, extents_len), BOTH(blocks_words, blocks_len), BOTH(spare, spare_len), NONE};
    bridge_call call = {.kind = FRESH, .head = {.blocks = blocks, .pages = pages, .logical = logical, .slots = slots}};
    return make(call, buffers).outcome;
}

utasiro_outcome utasiro_write(utasiro_head head, uint32_t *extents, size_t extents_len, uint32_t *blocks, size_t blocks_len,
                              uint32_t *spare, size_t spare_len, uint64_t number, uint32_t start, uint32_t count,
                              uint32_t *answer, size_t answer_len) {
    lent buffers[] = {BOTH(extents, extents_len), BOTH(blocks, blocks_len), BOTH(spare, spare_len), BOTH(answer, answer_len)};
    bridge_call call = {.kind = WRITE, .head = head, .number = number, .start = start, .count = count};
    return make(call, buffers).outcome;
}

utasiro_outcome utasiro_trim(utasiro_head head, uint32_t *extents, size_t extents_len, uint32_t *blocks, size_t blocks_len,
                             const uint32_t *spare, size_t spare_len, uint64_t number, uint32_t start, uint32_t count) {
    lent buffers[] = {BOTH(extents, extents_len), BOTH(blocks, blocks_len), ONLY(spare, spare_len), NONE};
    bridge_call call = {.kind = TRIM, .head = head, .number = number, .start = start, .count = count};
    return make(call, buffers).outcome;
}

utasiro_outcome utasiro_read(utasiro_head head, const uint32_t *extents, size_t extents_len, const uint32_t *blocks,
                             size_t blocks_len, const uint32_t *spare, size_t spare_len, uint32_t start, uint32_t count,
                             uint32_t *answer, size_t answer_len) {
    lent buffers[] = {ONLY(extents, extents_len), ONLY(blocks, blocks_len), ONLY(spare, spare_len), BOTH(answer, answer_len)};
    bridge_call call = {.kind = READ, .head = head, .start = start, .count = count};
    return make(call, buffers).outcome;
}

utasiro_outcome utasiro_reclaim(utasiro_head head, uint32_t *extents, size_t extents_len, uint32_t *blocks, size_t blocks_len,
                                uint32_t *spare, size_t spare_len, uint32_t *answer, size_t answer_len) {
    lent buffers[] = {BOTH(extents, extents_len), BOTH(blocks, blocks_len), BOTH(spare, spare_len), BOTH(answer, answer_len)};
    bridge_call call = {.kind = RECLAIM, .head = head};
    return make(call, buffers).outcome;
}

utasiro_counts utasiro_report(utasiro_head head, const uint32_t *extents, size_t extents_len, const uint32_t *blocks,
                              size_t blocks_len, const uint32_t *spare, size_t spare_len) {
    lent buffers[] = {ONLY(extents, extents_len), ONLY(blocks, blocks_len), ONLY(spare, spare_len), NONE};
    bridge_call call = {.kind = REPORT, .head = head};
    return make(call, buffers).counts;
}

utasiro_outcome utasiro_read_records(utasiro_head head, const utasiro_extent *extents, size_t extents_len, const uint32_t *blocks,
                                     size_t blocks_len, const uint32_t *spare, size_t spare_len, uint32_t start, uint32_t count,
                                     uint32_t *answer, size_t answer_len) {
    lent buffers[] = {ONLY((const uint32_t *)extents, words_of(extents_len)), ONLY(blocks, blocks_len), ONLY(spare, spare_len),
                      BOTH(answer, answer_len)};
    bridge_call call = {.kind = READ_RECORDS, .head = head, .start = start, .count = count};
    return make(call, buffers).outcome;
}
