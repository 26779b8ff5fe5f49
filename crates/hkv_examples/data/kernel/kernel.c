/* A small kernel: processes, files and pipes, messages, memory, devices, and the traps.
 *
 * What comes in: the arguments of a call or a trap, which boot.c hands on. What goes out: 0, or -1 where the call is
 * refused and nothing has changed; a few calls return a number instead of 0. The caller names each slot that is used,
 * the kernel tests the choice: no handler looks for a free one. The only loops are those of `none of the table ..`,
 * which clang unrolls. All state is in the tables below, one array for each member.
 *
 * Memory is a forest. A process has a root, a root leads to middle tables, these to leaves, these to frames; each
 * middle table, leaf and frame knows the one entry that leads to it (its parent, plus 1, and the index there). */

#include <stdint.h>
#include "sizes.h"

#define UNROLL _Pragma("clang loop unroll(full)")

enum { FREE = 0, EMBRYO = 1, RUNNABLE = 2, SLEEPING = 3, ZOMBIE = 4 };
enum { NONE = 0, PLAIN = 1, PIPE_READ = 2, PIPE_WRITE = 3 };
enum { WRITE = 1, EXECUTE = 2 };

/* Bits of an entry: valid, readable, writable, executable, for user mode, accessed, dirty. */
enum { V = 1, R = 2, W = 4, X = 8, U = 16, A = 64, D = 128, POINTER = V, PAGE = V | R | U | A | D };

/* What a handler asks of boot.c. */
void context_start(uint32_t pid, uint32_t entry, uint32_t stack, uint32_t arg); /* the registers that pid begins with */
void port_out(uint32_t port, uint32_t value);
void irq_enable(uint32_t source);
void irq_disable(uint32_t source);
void irq_complete(uint32_t source);

/* Processes. At boot INIT runs. */
uint32_t current = INIT;
uint32_t ticks;
uint32_t proc_state[NPROC] = {[INIT] = RUNNABLE};
uint32_t proc_parent[NPROC] = {[INIT] = INIT};
uint32_t proc_next[NPROC] = {[INIT] = INIT}; /* who runs after it */
uint32_t proc_name[NPROC] = {[INIT] = 0x74696e69};
uint32_t proc_status[NPROC]; /* what it ended with */

/* Messages. A sleeping process waits for one. */
uint32_t recv_from[NPROC];  /* 0, or the process that it waits for, plus 1; NPROC + 1: any */
uint32_t recv_leaf[NPROC];  /* where a page is to be put */
uint32_t recv_index[NPROC];
uint32_t recv_fd[NPROC];    /* where a descriptor is to be put */
uint32_t msg_from[NPROC];
uint32_t msg_value[NPROC];

/* Files. The descriptors of one file are all of one process, its owner. */
uint32_t fds[NPROC][NFD]; /* 0, or the file plus 1 */
uint32_t file_kind[NFILE];
uint32_t file_owner[NFILE];
uint32_t file_fds[NFILE];   /* the owner's descriptors that name it: a bit for each */
uint32_t file_value[NFILE]; /* the pipe, where the file is an end of one */
uint32_t file_offset[NFILE];
uint32_t pipe_reader[NPIPE]; /* 0, or the file that is its end, plus 1 */
uint32_t pipe_writer[NPIPE];
uint32_t pipe_head[NPIPE];
uint32_t pipe_count[NPIPE];
uint32_t pipe_word[NPIPE][NPIPEWORD];

/* Memory. At boot INIT has the last middle table, the last leaf and the last frame. */
struct root {
    uint64_t entry[ROOTE];
    uint64_t rest[512 - ROOTE];
};
struct middle {
    uint64_t entry[MIDDLEE];
    uint64_t rest[512 - MIDDLEE];
};
struct leaf {
    uint64_t entry[LEAFE];
    uint64_t rest[512 - LEAFE];
};
#define ENTRY(at, number, flags) (((((uint64_t)(at) >> 12) + (number)) << 10) | (flags))

__attribute__((section(".roots"))) struct root roots[NPROC] = {
    [INIT] = {.entry = {[ROOTE - 1] = ENTRY(MIDDLES_AT, NMIDDLE - 1, POINTER)}},
};
__attribute__((section(".middles"))) struct middle middles[NMIDDLE] = {
    [NMIDDLE - 1] = {.entry = {[MIDDLEE - 1] = ENTRY(LEAVES_AT, NLEAF - 1, POINTER)}},
};
__attribute__((section(".leaves"))) struct leaf leaves[NLEAF] = {
    [NLEAF - 1] = {.entry = {
        [0] = ENTRY(IMAGE_AT, 0, PAGE | X),
        [1] = ENTRY(IMAGE_AT, 1, PAGE | X),
        [2] = ENTRY(IMAGE_AT, 2, PAGE | X),
        [LEAFE - 1] = ENTRY(FRAMES_AT, NFRAME - 1, PAGE | W),
    }},
};
__attribute__((section(".bss.frames"))) uint64_t frames[NFRAME][NWORD];

/* The one place that leads to a table or a frame: the number of what holds the entry, plus 1, and the entry's index. */
uint32_t middle_parent[NMIDDLE] = {[NMIDDLE - 1] = INIT + 1};
uint32_t middle_index[NMIDDLE] = {[NMIDDLE - 1] = ROOTE - 1};
uint32_t leaf_parent[NLEAF] = {[NLEAF - 1] = NMIDDLE};
uint32_t leaf_index[NLEAF] = {[NLEAF - 1] = MIDDLEE - 1};
uint32_t frame_parent[NFRAME] = {[NFRAME - 1] = NLEAF};
uint32_t frame_index[NFRAME] = {[NFRAME - 1] = LEAFE - 1};
uint32_t frame_cleared[NFRAME] = {[0 ... NFRAME - 2] = NWORD}; /* of a frame that nobody has: its first words that are 0 */

/* Devices, each with an owner: 0, or the process plus 1. */
uint32_t port_owner[NPORT];
uint32_t vector_owner[NVECTOR];
uint32_t vector_pending[NVECTOR];
uint32_t source_vector[NSOURCE]; /* 0, or the vector that the source is sent to, plus 1 */
uint32_t device_owner[NDEVICE];
uint32_t device_parent[NDEVICE];
uint32_t device_index[NDEVICE];

/* ---- Who may do what ---- */

static inline uint32_t is_child(uint32_t pid, uint32_t state) {
    return pid < NPROC && proc_state[pid] == state && proc_parent[pid] == current;
}

/* A process builds itself, and a child that has not begun. */
static inline uint32_t may_build(uint32_t pid) {
    return pid == current || is_child(pid, EMBRYO);
}

/* .. and it takes apart what a dead child has left. */
static inline uint32_t may_take(uint32_t pid) {
    return pid == current || is_child(pid, EMBRYO) || is_child(pid, ZOMBIE);
}

/* Whose tables a middle table and a leaf belong to: a process, or a number that is none. */
static inline uint32_t middle_owner(uint32_t middle) {
    return middle < NMIDDLE ? middle_parent[middle] - 1 : NPROC;
}

static inline uint32_t leaf_owner(uint32_t leaf) {
    return leaf < NLEAF ? middle_owner(leaf_parent[leaf] - 1) : NPROC;
}

static inline uint32_t frame_owner(uint32_t frame) {
    return frame < NFRAME ? leaf_owner(frame_parent[frame] - 1) : NPROC;
}

/* ---- Processes ---- */

/* Takes the free process pid as a child. */
int32_t sys_create(uint32_t pid) {
    if (pid >= NPROC || proc_state[pid] != FREE)
        return -1;
    proc_state[pid] = EMBRYO;
    proc_parent[pid] = current;
    proc_next[pid] = current;
    proc_name[pid] = 0;
    return 0;
}

int32_t sys_set_name(uint32_t pid, uint32_t name) {
    if (!may_build(pid))
        return -1;
    proc_name[pid] = name;
    return 0;
}

/* Lets a child begin. */
int32_t sys_start(uint32_t pid, uint32_t entry, uint32_t stack, uint32_t arg) {
    if (!is_child(pid, EMBRYO))
        return -1;
    proc_state[pid] = RUNNABLE;
    context_start(pid, entry, stack, arg);
    return 0;
}

int32_t sys_switch(uint32_t pid) {
    if (pid >= NPROC || proc_state[pid] != RUNNABLE)
        return -1;
    current = pid;
    return 0;
}

/* Says who runs after the caller when it yields or its time is over. */
int32_t sys_set_next(uint32_t pid) {
    if (pid >= NPROC)
        return -1;
    proc_next[current] = pid;
    return 0;
}

/* Goes on with the process that the running process has named, or INIT. */
static inline void go_on(void) {
    current = proc_state[proc_next[current]] == RUNNABLE ? proc_next[current] : INIT;
}

int32_t sys_yield(void) {
    go_on();
    return 0;
}

static inline void end_running(uint32_t status) {
    proc_state[current] = ZOMBIE;
    proc_status[current] = status;
    recv_from[current] = 0;
    current = INIT;
}

int32_t sys_exit(uint32_t status) {
    if (current == INIT)
        return -1;
    end_running(status);
    return 0;
}

int32_t sys_kill(uint32_t pid) {
    if (pid >= NPROC || pid == current || pid == INIT || proc_parent[pid] != current)
        return -1;
    if (proc_state[pid] == FREE || proc_state[pid] == ZOMBIE)
        return -1;
    proc_state[pid] = ZOMBIE;
    proc_status[pid] = 0;
    recv_from[pid] = 0;
    return 0;
}

/* Gives up a dead child that has nothing left: no table, descriptor, file, device or child. */
int32_t sys_reap(uint32_t pid) {
    uint32_t held = 0;
    if (!is_child(pid, ZOMBIE))
        return -1;
    UNROLL for (uint32_t i = 0; i < ROOTE; i++)
        held |= roots[pid].entry[i] != 0;
    UNROLL for (uint32_t i = 0; i < NFD; i++)
        held |= fds[pid][i] != 0;
    UNROLL for (uint32_t i = 0; i < NFILE; i++)
        held |= (file_kind[i] != NONE) & (file_owner[i] == pid);
    UNROLL for (uint32_t i = 0; i < NPORT; i++)
        held |= port_owner[i] == pid + 1;
    UNROLL for (uint32_t i = 0; i < NVECTOR; i++)
        held |= vector_owner[i] == pid + 1;
    UNROLL for (uint32_t i = 0; i < NDEVICE; i++)
        held |= device_owner[i] == pid + 1;
    UNROLL for (uint32_t i = 0; i < NPROC; i++)
        held |= (proc_state[i] != FREE) & (proc_parent[i] == pid);
    if (held)
        return -1;
    proc_state[pid] = FREE;
    return 0;
}

/* Hands the child of a dead process to INIT. */
int32_t sys_reparent(uint32_t pid) {
    if (pid >= NPROC || proc_state[pid] == FREE || proc_state[proc_parent[pid]] != ZOMBIE)
        return -1;
    proc_parent[pid] = INIT;
    return 0;
}

int32_t sys_get_pid(void) {
    return current;
}

/* What a dead child ended with. */
int64_t sys_get_status(uint32_t pid) {
    if (!is_child(pid, ZOMBIE))
        return -1;
    return proc_status[pid];
}

/* ---- Files and pipes ---- */

static inline uint32_t can_open(uint32_t fd, uint32_t file) {
    return fd < NFD && file < NFILE && fds[current][fd] == 0 && file_kind[file] == NONE;
}

static inline void open(uint32_t fd, uint32_t file, uint32_t kind, uint32_t value) {
    fds[current][fd] = file + 1;
    file_kind[file] = kind;
    file_owner[file] = current;
    file_fds[file] = 1u << fd;
    file_value[file] = value;
    file_offset[file] = 0;
}

/* The file that a descriptor of the caller names, or a number that is none. */
static inline uint32_t named(uint32_t fd) {
    return fd < NFD ? fds[current][fd] - 1 : NFILE;
}

/* Takes a descriptor from a file, and ends the file with its last one. */
static inline void drop(uint32_t file, uint32_t fd) {
    file_fds[file] &= ~(1u << fd);
    if (file_fds[file] != 0)
        return;
    if (file_kind[file] == PIPE_READ)
        pipe_reader[file_value[file]] = 0;
    if (file_kind[file] == PIPE_WRITE)
        pipe_writer[file_value[file]] = 0;
    file_kind[file] = NONE;
}

int32_t sys_create_file(uint32_t fd, uint32_t file, uint32_t value) {
    if (!can_open(fd, file))
        return -1;
    open(fd, file, PLAIN, value);
    return 0;
}

/* Closes a descriptor of the caller or of a dead child, and the file with its last one. */
int32_t sys_close(uint32_t pid, uint32_t fd) {
    if (!may_take(pid) || fd >= NFD || fds[pid][fd] == 0)
        return -1;
    drop(fds[pid][fd] - 1, fd);
    fds[pid][fd] = 0;
    return 0;
}

int32_t sys_dup(uint32_t oldfd, uint32_t newfd) {
    if (oldfd >= NFD || newfd >= NFD || fds[current][oldfd] == 0 || fds[current][newfd] != 0)
        return -1;
    fds[current][newfd] = fds[current][oldfd];
    file_fds[fds[current][oldfd] - 1] |= 1u << newfd;
    return 0;
}

/* The same onto a descriptor that is open: what it named is closed. */
int32_t sys_dup2(uint32_t oldfd, uint32_t newfd) {
    if (oldfd >= NFD || newfd >= NFD || fds[current][oldfd] == 0 || fds[current][newfd] == 0)
        return -1;
    if (fds[current][oldfd] == fds[current][newfd])
        return -1;
    drop(fds[current][newfd] - 1, newfd);
    file_fds[fds[current][oldfd] - 1] |= 1u << newfd;
    fds[current][newfd] = fds[current][oldfd];
    return 0;
}

/* Hands a file that one descriptor names to a child that has not begun. */
int32_t sys_transfer(uint32_t fd, uint32_t pid, uint32_t newfd) {
    if (fd >= NFD || newfd >= NFD || fds[current][fd] == 0 || file_fds[fds[current][fd] - 1] != 1u << fd)
        return -1;
    if (!is_child(pid, EMBRYO) || pid == current || fds[pid][newfd] != 0)
        return -1;
    file_owner[fds[current][fd] - 1] = pid;
    file_fds[fds[current][fd] - 1] = 1u << newfd;
    fds[pid][newfd] = fds[current][fd];
    fds[current][fd] = 0;
    return 0;
}

int32_t sys_pipe(uint32_t readfd, uint32_t readfile, uint32_t writefd, uint32_t writefile, uint32_t pipe) {
    if (!can_open(readfd, readfile) || !can_open(writefd, writefile) || readfd == writefd || readfile == writefile)
        return -1;
    if (pipe >= NPIPE || pipe_reader[pipe] != 0 || pipe_writer[pipe] != 0)
        return -1;
    open(readfd, readfile, PIPE_READ, pipe);
    open(writefd, writefile, PIPE_WRITE, pipe);
    pipe_reader[pipe] = readfile + 1;
    pipe_writer[pipe] = writefile + 1;
    pipe_head[pipe] = 0;
    pipe_count[pipe] = 0;
    return 0;
}

/* Takes the first word out of a pipe, or -1. */
int64_t sys_pipe_read(uint32_t fd) {
    uint32_t file = named(fd);
    if (file >= NFILE || file_kind[file] != PIPE_READ || pipe_count[file_value[file]] == 0)
        return -1;
    uint32_t pipe = file_value[file];
    uint32_t head = pipe_head[pipe];
    pipe_head[pipe] = (head + 1) % NPIPEWORD;
    pipe_count[pipe] -= 1;
    return pipe_word[pipe][head];
}

/* Puts a word behind the others of a pipe. */
int32_t sys_pipe_write(uint32_t fd, uint32_t word) {
    uint32_t file = named(fd);
    if (file >= NFILE || file_kind[file] != PIPE_WRITE || pipe_count[file_value[file]] >= NPIPEWORD)
        return -1;
    uint32_t pipe = file_value[file];
    pipe_word[pipe][(pipe_head[pipe] + pipe_count[pipe]) % NPIPEWORD] = word;
    pipe_count[pipe] += 1;
    return 0;
}

int32_t sys_seek(uint32_t fd, uint32_t offset) {
    uint32_t file = named(fd);
    if (file >= NFILE || file_kind[file] != PLAIN)
        return -1;
    file_offset[file] = offset;
    return 0;
}

int64_t sys_tell(uint32_t fd) {
    uint32_t file = named(fd);
    if (file >= NFILE)
        return -1;
    return file_offset[file];
}

/* The kind of the file that a descriptor names. */
int64_t sys_file_kind(uint32_t fd) {
    uint32_t file = named(fd);
    if (file >= NFILE)
        return -1;
    return file_kind[file];
}

int64_t sys_file_value(uint32_t fd) {
    uint32_t file = named(fd);
    if (file >= NFILE)
        return -1;
    return file_value[file];
}

/* ---- Messages ---- */

/* Whether pid waits for a message of the caller. */
static inline uint32_t awaits(uint32_t pid) {
    return pid < NPROC && proc_state[pid] == SLEEPING && (recv_from[pid] == current + 1 || recv_from[pid] == NPROC + 1);
}

static inline void deliver(uint32_t pid, uint32_t value) {
    proc_state[pid] = RUNNABLE;
    recv_from[pid] = 0;
    msg_from[pid] = current;
    msg_value[pid] = value;
}

static inline void wait(uint32_t from, uint32_t leaf, uint32_t index, uint32_t fd) {
    proc_state[current] = SLEEPING;
    recv_from[current] = from + 1;
    recv_leaf[current] = leaf;
    recv_index[current] = index;
    recv_fd[current] = fd;
}

/* Makes the entry that leads to a frame another one. */
static inline void move(uint32_t frame, uint32_t leaf, uint32_t index) {
    uint32_t old_leaf = frame_parent[frame] - 1, old_index = frame_index[frame];
    leaves[leaf].entry[index] = leaves[old_leaf].entry[old_index];
    leaves[old_leaf].entry[old_index] = 0;
    frame_parent[frame] = leaf + 1;
    frame_index[frame] = index;
}

/* Sleeps until from, or any where it is NPROC, sends a message: a page to an entry of a leaf, a file to a descriptor. */
int32_t sys_recv(uint32_t from, uint32_t leaf, uint32_t index, uint32_t fd) {
    if (current == INIT || from > NPROC)
        return -1;
    wait(from, leaf, index, fd);
    go_on();
    return 0;
}

int32_t sys_send(uint32_t pid, uint32_t value) {
    if (!awaits(pid))
        return -1;
    deliver(pid, value);
    return 0;
}

/* Sends a frame of the caller's with its contents. */
int32_t sys_send_page(uint32_t pid, uint32_t value, uint32_t frame) {
    if (!awaits(pid) || frame_owner(frame) != current)
        return -1;
    uint32_t leaf = recv_leaf[pid], index = recv_index[pid];
    if (leaf_owner(leaf) != pid || index >= LEAFE || leaves[leaf].entry[index] != 0)
        return -1;
    move(frame, leaf, index);
    deliver(pid, value);
    return 0;
}

/* Sends a file that one descriptor of the caller names. */
int32_t sys_send_file(uint32_t pid, uint32_t value, uint32_t fd) {
    if (!awaits(pid) || pid == current || fd >= NFD || fds[current][fd] == 0)
        return -1;
    if (file_fds[fds[current][fd] - 1] != 1u << fd)
        return -1;
    if (recv_fd[pid] >= NFD || fds[pid][recv_fd[pid]] != 0)
        return -1;
    file_owner[fds[current][fd] - 1] = pid;
    file_fds[fds[current][fd] - 1] = 1u << recv_fd[pid];
    fds[pid][recv_fd[pid]] = fds[current][fd];
    fds[current][fd] = 0;
    deliver(pid, value);
    return 0;
}

/* Sends, and sleeps for the answer; the other process runs. */
int32_t sys_call(uint32_t pid, uint32_t value) {
    if (current == INIT || pid == current || !awaits(pid))
        return -1;
    deliver(pid, value);
    wait(pid, NLEAF, 0, NFD);
    current = pid;
    return 0;
}

/* Answers, and sleeps for the next message of any process; the other process runs. */
int32_t sys_reply_wait(uint32_t pid, uint32_t value) {
    if (current == INIT || pid == current || !awaits(pid))
        return -1;
    deliver(pid, value);
    wait(NPROC, NLEAF, 0, NFD);
    current = pid;
    return 0;
}

int64_t sys_message_value(void) {
    return msg_value[current];
}

int64_t sys_message_from(void) {
    return msg_from[current];
}

/* ---- Memory ---- */

/* Hangs a free middle table into a root. */
int32_t sys_alloc_middle(uint32_t pid, uint32_t index, uint32_t middle) {
    if (!may_build(pid) || index >= ROOTE || roots[pid].entry[index] != 0)
        return -1;
    if (middle >= NMIDDLE || middle_parent[middle] != 0)
        return -1;
    roots[pid].entry[index] = ENTRY(MIDDLES_AT, middle, POINTER);
    middle_parent[middle] = pid + 1;
    middle_index[middle] = index;
    return 0;
}

/* Hangs a free leaf into a middle table. */
int32_t sys_alloc_leaf(uint32_t middle, uint32_t index, uint32_t leaf) {
    if (!may_build(middle_owner(middle)) || index >= MIDDLEE || middles[middle].entry[index] != 0)
        return -1;
    if (leaf >= NLEAF || leaf_parent[leaf] != 0)
        return -1;
    middles[middle].entry[index] = ENTRY(LEAVES_AT, leaf, POINTER);
    leaf_parent[leaf] = middle + 1;
    leaf_index[leaf] = index;
    return 0;
}

/* Whether an entry of a leaf is empty and the caller's to fill. */
static inline uint32_t can_map(uint32_t leaf, uint32_t index) {
    return may_build(leaf_owner(leaf)) && index < LEAFE && leaves[leaf].entry[index] == 0;
}

/* No page is both writable and executable. */
static inline uint64_t bits_of(uint32_t rights) {
    return rights == WRITE ? PAGE | W : rights == EXECUTE ? PAGE | X : PAGE;
}

/* Maps a free frame, which is all zero. */
int32_t sys_alloc_frame(uint32_t leaf, uint32_t index, uint32_t frame, uint32_t rights) {
    if (!can_map(leaf, index) || frame >= NFRAME || frame_parent[frame] != 0 || frame_cleared[frame] != NWORD)
        return -1;
    leaves[leaf].entry[index] = ENTRY(FRAMES_AT, frame, bits_of(rights));
    frame_parent[frame] = leaf + 1;
    frame_index[frame] = index;
    frame_cleared[frame] = 0;
    return 0;
}

/* Takes an empty middle table out of its root. */
int32_t sys_free_middle(uint32_t middle) {
    uint64_t used = 0;
    if (!may_take(middle_owner(middle)))
        return -1;
    UNROLL for (uint32_t i = 0; i < MIDDLEE; i++)
        used |= middles[middle].entry[i];
    if (used)
        return -1;
    roots[middle_parent[middle] - 1].entry[middle_index[middle]] = 0;
    middle_parent[middle] = 0;
    return 0;
}

/* Takes an empty leaf out of its middle table. */
int32_t sys_free_leaf(uint32_t leaf) {
    uint64_t used = 0;
    if (!may_take(leaf_owner(leaf)))
        return -1;
    UNROLL for (uint32_t i = 0; i < LEAFE; i++)
        used |= leaves[leaf].entry[i];
    if (used)
        return -1;
    middles[leaf_parent[leaf] - 1].entry[leaf_index[leaf]] = 0;
    leaf_parent[leaf] = 0;
    return 0;
}

/* Takes a frame out of its leaf. It has to be cleared before anybody gets it. */
int32_t sys_free_frame(uint32_t frame) {
    if (!may_take(frame_owner(frame)))
        return -1;
    leaves[frame_parent[frame] - 1].entry[frame_index[frame]] = 0;
    frame_parent[frame] = 0;
    return 0;
}

/* Clears the next word of a frame that nobody has. */
int32_t sys_clear_word(uint32_t frame) {
    if (frame >= NFRAME || frame_parent[frame] != 0 || frame_cleared[frame] >= NWORD)
        return -1;
    frames[frame][frame_cleared[frame]] = 0;
    frame_cleared[frame] += 1;
    return 0;
}

int32_t sys_protect(uint32_t frame, uint32_t rights) {
    if (!may_build(frame_owner(frame)))
        return -1;
    leaves[frame_parent[frame] - 1].entry[frame_index[frame]] = ENTRY(FRAMES_AT, frame, bits_of(rights));
    return 0;
}

int32_t sys_copy_word(uint32_t from, uint32_t from_word, uint32_t to, uint32_t to_word) {
    if (!may_build(frame_owner(from)) || !may_build(frame_owner(to)) || from_word >= NWORD || to_word >= NWORD)
        return -1;
    frames[to][to_word] = frames[from][from_word];
    return 0;
}

/* Moves a frame to another entry, of the caller's or of a child that has not begun. */
int32_t sys_move_frame(uint32_t frame, uint32_t leaf, uint32_t index) {
    if (!may_build(frame_owner(frame)) || !can_map(leaf, index))
        return -1;
    move(frame, leaf, index);
    return 0;
}

/* Maps a page of the user programs' text. */
int32_t sys_map_image(uint32_t leaf, uint32_t index, uint32_t page) {
    if (!can_map(leaf, index) || page >= NIMAGE)
        return -1;
    leaves[leaf].entry[index] = ENTRY(IMAGE_AT, page, PAGE | X);
    return 0;
}

/* Maps a page of the kernel's small tables, to be read alone. */
int32_t sys_map_kernel(uint32_t leaf, uint32_t index, uint32_t page) {
    if (!can_map(leaf, index) || page >= NKERNEL)
        return -1;
    leaves[leaf].entry[index] = ENTRY(KERNEL_AT, page, PAGE);
    return 0;
}

/* Takes a page of the text or of the kernel's tables out of a leaf. */
int32_t sys_unmap(uint32_t leaf, uint32_t index) {
    if (!may_take(leaf_owner(leaf)) || index >= LEAFE)
        return -1;
    uint64_t page = leaves[leaf].entry[index] >> 10;
    if (page - (IMAGE_AT >> 12) >= NIMAGE && page - (KERNEL_AT >> 12) >= NKERNEL)
        return -1;
    leaves[leaf].entry[index] = 0;
    return 0;
}

/* ---- Devices ---- */

int32_t sys_alloc_port(uint32_t port) {
    if (port >= NPORT || port_owner[port] != 0)
        return -1;
    port_owner[port] = current + 1;
    return 0;
}

int32_t sys_free_port(uint32_t port) {
    if (port >= NPORT || !may_take(port_owner[port] - 1))
        return -1;
    port_owner[port] = 0;
    return 0;
}

int32_t sys_port_out(uint32_t port, uint32_t value) {
    if (port >= NPORT || port_owner[port] != current + 1)
        return -1;
    port_out(port, value);
    return 0;
}

int32_t sys_alloc_vector(uint32_t vector) {
    if (vector >= NVECTOR || vector_owner[vector] != 0)
        return -1;
    vector_owner[vector] = current + 1;
    vector_pending[vector] = 0;
    return 0;
}

/* Gives up a vector that no source is sent to. */
int32_t sys_free_vector(uint32_t vector) {
    uint32_t used = 0;
    if (vector >= NVECTOR || !may_take(vector_owner[vector] - 1))
        return -1;
    UNROLL for (uint32_t i = 0; i < NSOURCE; i++)
        used |= source_vector[i] == vector + 1;
    if (used)
        return -1;
    vector_owner[vector] = 0;
    return 0;
}

/* Sends the interrupts of a source to a vector of the caller's. */
int32_t sys_alloc_source(uint32_t source, uint32_t vector) {
    if (source >= NSOURCE || source_vector[source] != 0 || vector >= NVECTOR || vector_owner[vector] != current + 1)
        return -1;
    source_vector[source] = vector + 1;
    irq_enable(source);
    return 0;
}

int32_t sys_free_source(uint32_t source) {
    if (source >= NSOURCE || source_vector[source] == 0 || !may_take(vector_owner[source_vector[source] - 1] - 1))
        return -1;
    source_vector[source] = 0;
    irq_disable(source);
    return 0;
}

/* Takes the interrupt that is pending at a vector, or -1. */
int32_t sys_take_interrupt(uint32_t vector) {
    if (vector >= NVECTOR || vector_owner[vector] != current + 1 || vector_pending[vector] == 0)
        return -1;
    vector_pending[vector] = 0;
    return 0;
}

/* Lets the source interrupt again. */
int32_t sys_ack_source(uint32_t source) {
    if (source >= NSOURCE || source_vector[source] == 0 || vector_owner[source_vector[source] - 1] != current + 1)
        return -1;
    irq_complete(source);
    return 0;
}

int32_t sys_alloc_device(uint32_t device) {
    if (device >= NDEVICE || device_owner[device] != 0)
        return -1;
    device_owner[device] = current + 1;
    return 0;
}

/* Gives up a device page that is mapped nowhere. */
int32_t sys_free_device(uint32_t device) {
    if (device >= NDEVICE || !may_take(device_owner[device] - 1) || device_parent[device] != 0)
        return -1;
    device_owner[device] = 0;
    return 0;
}

int32_t sys_map_device(uint32_t device, uint32_t leaf, uint32_t index) {
    if (device >= NDEVICE || device_owner[device] != current + 1 || device_parent[device] != 0)
        return -1;
    if (leaf_owner(leaf) != current || index >= LEAFE || leaves[leaf].entry[index] != 0)
        return -1;
    leaves[leaf].entry[index] = ENTRY(device == 0 ? SERIAL_AT : CLOCK_AT, 0, PAGE | W);
    device_parent[device] = leaf + 1;
    device_index[device] = index;
    return 0;
}

int32_t sys_unmap_device(uint32_t device) {
    if (device >= NDEVICE || !may_take(device_owner[device] - 1) || device_parent[device] == 0)
        return -1;
    leaves[device_parent[device] - 1].entry[device_index[device]] = 0;
    device_parent[device] = 0;
    return 0;
}

/* ---- Traps ---- */

/* The time of the running process is over. */
int32_t trap_timer(void) {
    ticks += 1;
    go_on();
    return 0;
}

int32_t trap_interrupt(uint32_t source) {
    if (source >= NSOURCE || source_vector[source] == 0)
        return -1;
    vector_pending[source_vector[source] - 1] = 1;
    return 0;
}

/* The running process did what the processor refuses: it ends. */
int32_t trap_fault(uint32_t cause) {
    if (current == INIT)
        return -1;
    end_running(cause);
    return 0;
}
