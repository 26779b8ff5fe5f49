// Refuses each allocation of a program in turn: a library for LD_PRELOAD, built and read by bench/memory.py.
//
// At the Nth allocation the program forks. In the child that allocation is refused and the run goes on to its end; the parent waits for it and
// goes on itself as if nothing had been. So every number is tried in one run, and each costs no more than what is left of the run behind it.
// For each child a record goes to the file named by REFUSE_LOG: `N STATUS LENGTH`, a newline, and all that it would have written to its output.

#define _GNU_SOURCE
#include <fcntl.h>
#include <stdio.h>
#include <stdlib.h>
#include <string.h>
#include <sys/mman.h>
#include <sys/wait.h>
#include <unistd.h>

extern void *__libc_malloc(size_t size);
extern void *__libc_realloc(void *old, size_t size);

enum { SHOWN_MOST = 1 << 20 };

// What was written to the output so far, and where the child leaves it for its parent.
static struct shown {
    size_t length;
    char bytes[SHOWN_MOST];
} *shown, *of_child;

static int log_file = -1;
static int is_child;
static long number, step = 1, first = 1;

static void *shared(void) {
    void *page = mmap(NULL, sizeof(struct shown), PROT_READ | PROT_WRITE, MAP_SHARED | MAP_ANONYMOUS, -1, 0);
    return page == MAP_FAILED ? NULL : page;
}

__attribute__((constructor)) static void begin(void) {
    const char *name = getenv("REFUSE_LOG"), *each = getenv("REFUSE_EACH"), *from = getenv("REFUSE_FROM");
    step = each ? atol(each) : 1;
    first = from ? atol(from) : 1;
    shown = shared();
    of_child = shared();
    if (name && shown && of_child) log_file = open(name, O_WRONLY | O_CREAT | O_TRUNC | O_CLOEXEC, 0600);
}

static void record(long refused, int status) {
    char head[64];
    int length = snprintf(head, sizeof head, "%ld %d %zu\n", refused, status, of_child->length);
    if (write(log_file, head, (size_t)length) != length) abort();
    if (write(log_file, of_child->bytes, of_child->length) != (ssize_t)of_child->length) abort();
}

// Whether this allocation is refused: in a child, at its own number alone.
static int is_refused(void) {
    if (log_file < 0 || is_child) return 0;
    number += 1;
    if (number < first || (number - first) % step) return 0;
    memcpy(of_child, shown, sizeof shown->length + shown->length);
    pid_t child = fork();
    if (child < 0) abort();
    if (child == 0) {
        is_child = 1;
        return 1;
    }
    int status = 0;
    if (waitpid(child, &status, 0) != child) abort();
    record(number, WIFEXITED(status) ? WEXITSTATUS(status) : 256 + WTERMSIG(status));
    return 0;
}

void *malloc(size_t size) { return is_refused() ? NULL : __libc_malloc(size); }

void *realloc(void *old, size_t size) { return is_refused() ? NULL : __libc_realloc(old, size); }

// What the program writes to its output; nothing of a child's comes out, and a file that it saves is not written.
static ssize_t keep(struct shown *to, const void *bytes, size_t length) {
    if (to->length + length > SHOWN_MOST) abort();
    memcpy(to->bytes + to->length, bytes, length);
    to->length += length;
    return (ssize_t)length;
}

extern ssize_t __write(int file, const void *bytes, size_t length);

ssize_t write(int file, const void *bytes, size_t length) {
    if (file == STDOUT_FILENO && shown) return keep(is_child ? of_child : shown, bytes, length);
    if (is_child) return (ssize_t)length;
    return __write(file, bytes, length);
}

__attribute__((destructor)) static void end(void) {
    if (is_child || log_file < 0) return;
    char last[64];
    int length = snprintf(last, sizeof last, "end %ld %zu\n", number, shown->length);
    if (__write(log_file, last, (size_t)length) != length) abort();
    if (__write(log_file, shown->bytes, shown->length) != (ssize_t)shown->length) abort();
}
