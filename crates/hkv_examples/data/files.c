/* A small kernel: a table of processes, each with descriptors of open files.
 *
 * A file has one owner, and each of its references is a descriptor of that
 * process. The caller chooses the process, the descriptor or the file to be
 * used, and the kernel only tests the choice, so no handler has a loop. */

#include <stdint.h>

#ifndef NPROC
#define NPROC 8 /* processes */
#endif
#ifndef NFILE
#define NFILE 16 /* files */
#endif
#define NFD 4 /* descriptors of a process */

enum { FREE = 0, USED = 1 };

struct proc {
    uint32_t state;    /* FREE or USED */
    uint32_t limit;    /* descriptors below it may be opened */
    uint32_t fds[NFD]; /* 0, or the number of a file plus 1 */
};

struct file {
    uint32_t refs;  /* 0 where the file is not open */
    uint32_t owner; /* the process whose descriptors name it */
};

/* At boot process 0 runs and no file is open. No element of procs is all zero,
 * so that clang writes one array for it. */
uint32_t current = 0;
struct proc procs[NPROC] = {
    [0] = {.state = USED, .limit = NFD},
    [1 ... NPROC - 1] = {.state = FREE, .limit = NFD},
};
struct file files[NFILE];

/* Starts the process pid, with the limit of the caller. */
int32_t sys_create(uint32_t pid) {
    if (pid >= NPROC || procs[pid].state != FREE)
        return -1;
    procs[pid].state = USED;
    procs[pid].limit = procs[current].limit;
    return 0;
}

/* Ends the process pid, which has closed its descriptors and is not the caller. */
int32_t sys_exit(uint32_t pid) {
    if (pid >= NPROC || pid == current || procs[pid].state != USED)
        return -1;
    if (procs[pid].fds[0] != 0 || procs[pid].fds[1] != 0 ||
        procs[pid].fds[2] != 0 || procs[pid].fds[3] != 0)
        return -1;
    procs[pid].state = FREE;
    return 0;
}

/* Goes on as the process pid. */
int32_t sys_switch(uint32_t pid) {
    if (pid >= NPROC || procs[pid].state != USED)
        return -1;
    current = pid;
    return 0;
}

/* Opens the file by the descriptor fd of the caller. */
int32_t sys_open(uint32_t fd, uint32_t file) {
    if (fd >= procs[current].limit || file >= NFILE)
        return -1;
    if (procs[current].fds[fd] != 0 || files[file].refs != 0)
        return -1;
    procs[current].fds[fd] = file + 1;
    files[file].refs = 1;
    files[file].owner = current;
    return 0;
}

/* Closes the descriptor fd of the caller. */
int32_t sys_close(uint32_t fd) {
    if (fd >= NFD)
        return -1;
    uint32_t named = procs[current].fds[fd];
    if (named == 0)
        return -1;
    procs[current].fds[fd] = 0;
    files[named - 1].refs -= 1;
    return 0;
}

/* Makes the descriptor newfd of the caller name what oldfd names. */
int32_t sys_dup(uint32_t oldfd, uint32_t newfd) {
    if (oldfd >= NFD || newfd >= procs[current].limit)
        return -1;
    uint32_t named = procs[current].fds[oldfd];
    if (named == 0 || procs[current].fds[newfd] != 0)
        return -1;
    procs[current].fds[newfd] = named;
    files[named - 1].refs += 1;
    return 0;
}

/* Hands the file that only the descriptor fd of the caller names to the process
 * pid, as its descriptor newfd. */
int32_t sys_transfer(uint32_t fd, uint32_t pid, uint32_t newfd) {
    if (fd >= NFD || pid >= NPROC || procs[pid].state != USED)
        return -1;
    if (newfd >= procs[pid].limit || procs[pid].fds[newfd] != 0)
        return -1;
    uint32_t named = procs[current].fds[fd];
    if (named == 0 || files[named - 1].refs != 1)
        return -1;
    procs[current].fds[fd] = 0;
    procs[pid].fds[newfd] = named;
    files[named - 1].owner = pid;
    return 0;
}

/* Sets the limit of the process pid; descriptors above it stay open. */
int32_t sys_set_limit(uint32_t pid, uint32_t limit) {
    if (pid >= NPROC || procs[pid].state != USED || limit > NFD)
        return -1;
    procs[pid].limit = limit;
    return 0;
}

/* The limit of the process pid, or -1. */
int32_t sys_get_limit(uint32_t pid) {
    if (pid >= NPROC || procs[pid].state != USED)
        return -1;
    return (int32_t)procs[pid].limit;
}
