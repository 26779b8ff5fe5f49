/* The user programs: main, which runs as INIT, starts the others, and says on the serial port what came of it.
 *
 * What comes in: the calls of kernel.c. What goes out: lines that boot.sh compares with expected.txt. A program has no
 * variables but its stack; its text is at the same place in every process. */

#include <stdint.h>
#include "../calls.h"
#include "../sizes.h"

#define DECLARE(name) int64_t name() __asm__("call_" #name);
CALLS(DECLARE)

enum { FREE, EMBRYO, RUNNABLE, SLEEPING, ZOMBIE };
enum { READ = 0, WRITE = 1, EXECUTE = 2, ANY = NPROC, NO_FD = NFD };
enum { SPARE = 3, SERIAL = 4, KERNEL = 5, SECOND = 6, STACK = LEAFE - 1 }; /* entries of a leaf */

#define AT(entry) (IMAGE_SEEN_AT + (uint64_t)(entry)*4096)
#define WORD(entry) (*(volatile uint64_t *)AT(entry))

extern volatile uint32_t proc_state[], ticks; /* of the kernel, seen through the page KERNEL */
#define SEEN(variable) ((volatile uint32_t *)((uint64_t)&(variable)-KERNEL_AT + AT(KERNEL)))

/* ---- Printing ---- */

static void put(const char *text) {
    volatile uint8_t *serial = (uint8_t *)AT(SERIAL);
    for (; *text; text++) {
        while (!(serial[5] & 0x20))
            ;
        *serial = *text;
    }
}

static void put_number(int64_t number) {
    if (number < 0) {
        put("-");
        number = -number;
    }
    if (number >= 10)
        put_number(number / 10);
    char digit[2] = {'0' + number % 10, 0};
    put(digit);
}

static void say(const char *text, int64_t number) {
    put(text);
    put(" ");
    put_number(number);
    put("\n");
}

/* ---- Starting and ending processes ---- */

/* A child has its middle table and its leaf, and its stack in the frame of its number. */
static int64_t make(uint32_t pid) {
    int64_t failed = sys_create(pid);
    failed |= sys_alloc_middle(pid, ROOTE - 1, pid);
    failed |= sys_alloc_leaf(pid, MIDDLEE - 1, pid);
    for (uint32_t page = 0; page < NIMAGE; page++)
        failed |= sys_map_image(pid, page, page);
    failed |= sys_alloc_frame(pid, STACK, pid, WRITE);
    return failed;
}

static int64_t start(uint32_t pid, void (*program)(uint32_t), uint32_t arg) {
    return sys_start(pid, (uint32_t)(uint64_t)program, (uint32_t)AT(STACK + 1), arg);
}

/* Clears a frame that nobody has, as far as it is not cleared. */
static int64_t clear(uint32_t frame) {
    for (int word = 0; word < NWORD; word++)
        if (sys_clear_word(frame))
            return -1;
    return 0;
}

/* Runs others until pid has ended; what it ended with. */
static int64_t ended(uint32_t pid) {
    while (sys_get_status(pid) < 0)
        for (uint32_t other = 0; other < INIT; other++)
            sys_switch(other);
    return sys_get_status(pid);
}

/* Takes apart what a dead child has, and gives up its number. */
static int64_t bury(uint32_t pid) {
    int64_t failed = sys_free_frame(pid) | clear(pid);
    for (uint32_t fd = 0; fd < NFD; fd++)
        sys_close(pid, fd);
    for (uint32_t entry = 0; entry < LEAFE; entry++)
        sys_unmap(pid, entry);
    failed |= sys_free_leaf(pid) | sys_free_middle(pid);
    return failed | sys_reap(pid);
}

/* ---- Programs ---- */

static void writer(uint32_t words) {
    for (uint32_t word = 1; word <= words; word++)
        while (sys_pipe_write(2, word * word))
            sys_yield();
    sys_exit(words);
}

static void reader(uint32_t words) {
    int64_t sum = 0;
    for (uint32_t i = 0; i < words; i++) {
        int64_t word;
        while ((word = sys_pipe_read(0)) < 0)
            sys_yield();
        sum += word;
    }
    sys_exit(sum);
}

/* Sends a word, a file and a question, and ends with the answer. */
static void sender(uint32_t to) {
    while (sys_send(to, 1000))
        sys_yield();
    sys_create_file(0, 0, 200);
    while (sys_send_file(to, 0, 0))
        sys_yield();
    while (sys_call(to, 30))
        sys_yield();
    sys_exit(sys_message_value());
}

/* Takes a word and a file, and then answers questions with the sum of all three. */
static void server(uint32_t from) {
    sys_recv(from, NLEAF, 0, NO_FD);
    uint32_t sum = sys_message_value();
    sys_recv(from, NLEAF, 0, 1);
    sum += sys_file_value(1);
    sys_recv(ANY, NLEAF, 0, NO_FD);
    for (;;)
        sys_reply_wait(sys_message_from(), sum + sys_message_value());
}

/* Fills a page, gives it away, and looks at it again. */
static void giver(uint32_t to) {
    sys_alloc_frame(0, SPARE, 2, WRITE);
    WORD(SPARE) = 4711;
    while (sys_send_page(to, 0, 2))
        sys_yield();
    sys_exit(WORD(SPARE));
}

static void taker(uint32_t from) {
    sys_recv(from, 1, SPARE, NO_FD);
    uint32_t seen = WORD(SPARE);
    WORD(SPARE) = 0;
    sys_exit(seen);
}

static void idle(uint32_t arg) {
    sys_exit(arg);
}

static void leaves_a_child(uint32_t arg) {
    sys_exit(make(1) | start(1, idle, arg));
}

/* Each of the next ones does what the processor is to refuse. */
static void looks_at_null(uint32_t arg) {
    sys_exit(*(volatile uint32_t *)(uint64_t)arg);
}

static void looks_at_the_kernel(uint32_t arg) {
    sys_exit(*(volatile uint32_t *)(uint64_t)(KERNEL_AT + arg));
}

static void looks_at_the_serial_port(uint32_t arg) {
    sys_exit(WORD(SERIAL) + arg);
}

static void writes_the_text(uint32_t arg) {
    WORD(0) = arg;
    sys_exit(0);
}

static void writes_the_kernels_page(uint32_t arg) {
    if (sys_map_kernel(0, KERNEL, 0) == 0 && WORD(KERNEL) + 1 != 0)
        WORD(KERNEL) = arg;
    sys_exit(0);
}

static void runs_its_stack(uint32_t arg) {
    ((void (*)(uint32_t))AT(STACK))(arg);
    sys_exit(0);
}

static void looks_at_a_frame_it_gave_back(uint32_t frame) {
    if (sys_alloc_frame(0, SPARE, frame, WRITE) == 0)
        WORD(SPARE) = 99;
    sys_free_frame(frame);
    sys_exit(WORD(SPARE));
}

static void writes_a_frame_to_be_read(uint32_t frame) {
    if (sys_alloc_frame(0, SPARE, frame, READ) == 0 && sys_move_frame(frame, 0, SECOND) == 0)
        WORD(SECOND) = 99;
    sys_exit(0);
}

static void asks_for_the_machine(uint32_t arg) {
    __asm__ volatile("csrw satp, %0" : : "r"((uint64_t)arg));
    sys_exit(0);
}

/* Asks for all that is not its own: process 1 is a child of INIT that has not begun. Ends with how many were refused. */
static void intruder(uint32_t arg) {
    uint32_t refused = 0;
#define TRY(call) refused += (call) < 0
    TRY(sys_create(1));
    TRY(sys_create(NPROC));
    TRY(sys_set_name(1, arg));
    TRY(sys_set_next(NPROC));
    TRY(sys_start(1, 0, 0, 0));
    TRY(sys_switch(1));
    TRY(sys_kill(INIT));
    TRY(sys_kill(1));
    TRY(sys_reap(1));
    TRY(sys_reparent(1));
    TRY(sys_get_status(1));
    TRY(sys_create_file(NFD, 0, 0));
    TRY(sys_create_file(0, NFILE, 0));
    TRY(sys_close(1, 0));
    TRY(sys_dup(0, 1));
    TRY(sys_transfer(0, 1, 0));
    TRY(sys_pipe_read(0));
    TRY(sys_pipe_write(NFD, 0));
    TRY(sys_send(1, 0));
    TRY(sys_send_page(1, 0, 1));
    TRY(sys_call(INIT, 0));
    TRY(sys_alloc_middle(INIT, 0, 2));
    TRY(sys_alloc_leaf(1, 0, 2));
    TRY(sys_alloc_frame(1, SPARE, 2, WRITE));
    TRY(sys_alloc_frame(0, SPARE, 1, WRITE));
    TRY(sys_alloc_frame(0, LEAFE, 2, WRITE));
    TRY(sys_free_middle(1));
    TRY(sys_free_middle(0));
    TRY(sys_free_leaf(1));
    TRY(sys_free_leaf(0));
    TRY(sys_free_frame(1));
    TRY(sys_clear_word(1));
    TRY(sys_protect(1, EXECUTE));
    TRY(sys_copy_word(1, 0, 0, 0));
    TRY(sys_copy_word(0, 0, 1, 0));
    TRY(sys_move_frame(1, 0, SPARE));
    TRY(sys_move_frame(0, 1, SPARE));
    TRY(sys_map_image(1, SPARE, 0));
    TRY(sys_map_image(0, SPARE, NIMAGE));
    TRY(sys_map_kernel(0, SPARE, NKERNEL));
    TRY(sys_unmap(1, 0));
    TRY(sys_unmap(0, STACK));
    TRY(sys_alloc_port(0));
    TRY(sys_free_port(0));
    TRY(sys_port_out(0, 0x5555));
    TRY(sys_alloc_vector(1));
    TRY(sys_free_vector(1));
    TRY(sys_alloc_source(10, 1));
    TRY(sys_take_interrupt(1));
    TRY(sys_ack_source(10));
    TRY(sys_alloc_device(0));
    TRY(sys_map_device(0, 0, SPARE));
    TRY(sys_unmap_device(0));
    TRY(sys_free_device(0));
    TRY(trap_fault(0));
    sys_exit(refused);
}

/* ---- What INIT shows ---- */

static void shows_files(void) {
    say("file: made", sys_create_file(0, 1, 77));
    say("file: kind", sys_file_kind(0));
    say("file: value", sys_file_value(0));
    say("file: seek", sys_seek(0, 5));
    say("file: dup", sys_dup(0, 1));
    say("file: offset by the other descriptor", sys_tell(1));
    say("file: another", sys_create_file(2, 2, 78));
    say("file: dup2", sys_dup2(0, 2));
    say("file: value behind dup2", sys_file_value(2));
    sys_close(INIT, 0);
    sys_close(INIT, 1);
    say("file: value of the last descriptor", sys_file_value(2));
    sys_close(INIT, 2);
    say("file: kind when it is closed", sys_file_kind(2));
}

static void shows_pipe(void) {
    say("pipe: made", sys_pipe(0, 0, 1, 1, 0));
    say("pipe: a writer", make(0) | sys_set_name(0, 0x72) | sys_transfer(1, 0, 2) | start(0, writer, 9));
    say("pipe: a reader", make(1) | sys_transfer(0, 1, 0) | start(1, reader, 9));
    say("pipe: the next one", sys_set_next(0) | sys_yield());
    say("pipe: the writer wrote", ended(0));
    say("pipe: the reader's sum of squares", ended(1));
    say("pipe: all taken back", bury(0) | bury(1));
}

static void shows_messages(void) {
    say("message: a sender and a server", make(0) | make(1) | start(0, sender, 1) | start(1, server, 0));
    say("message: the answer", ended(0));
    say("message: the server is killed", sys_kill(1));
    say("message: all taken back", bury(0) | bury(1));
    say("page: a giver and a taker", make(0) | make(1) | start(0, giver, 1) | start(1, taker, 0));
    say("page: the taker saw", ended(1));
    say("page: the giver looked again, cause", ended(0));
    say("page: all taken back", sys_free_frame(2) | clear(2) | bury(0) | bury(1));
}

static void shows_memory(void) {
    uint32_t own = NLEAF - 1;
    say("frame: mapped", sys_alloc_frame(own, SPARE, 4, WRITE));
    WORD(SPARE) = 123;
    say("frame: a word is copied", sys_copy_word(4, 0, 4, 1));
    say("frame: read alone from now on", sys_protect(4, READ));
    say("frame: moved", sys_move_frame(4, own, SECOND));
    say("frame: its word", (&WORD(SECOND))[1]);
    say("frame: given back", sys_free_frame(4));
    say("frame: not to be had before it is cleared", sys_alloc_frame(own, SPARE, 4, WRITE));
    say("frame: cleared", clear(4));
    say("frame: mapped again", sys_alloc_frame(own, SPARE, 4, READ));
    say("frame: its word", (&WORD(SPARE))[1]);
    say("frame: given back", sys_free_frame(4) | clear(4));
    say("kernel page: mapped", sys_map_kernel(own, KERNEL, 0));
    say("kernel page: the state of INIT", *SEEN(proc_state[INIT]));
    while (*SEEN(ticks) == 0)
        ;
    put("kernel page: time goes\n");
    say("kernel page: given back", sys_unmap(own, KERNEL));
}

static void shows_devices(void) {
    volatile uint8_t *serial = (uint8_t *)AT(SERIAL);
    say("clock: mapped", sys_alloc_device(1) | sys_map_device(1, NLEAF - 1, SPARE));
    say("clock: goes", *(volatile uint32_t *)AT(SPARE) != 0);
    say("clock: given back", sys_unmap_device(1) | sys_free_device(1));
    say("port: written and given back", sys_alloc_port(1) | sys_port_out(1, 0) | sys_free_port(1));
    say("interrupt: the serial port's go to vector 1", sys_alloc_vector(1) | sys_alloc_source(10, 1));
    serial[1] = 2; /* it interrupts when it can take a byte */
    while (sys_take_interrupt(1) != 0)
        ;
    serial[1] = 0;
    (void)serial[2];
    say("interrupt: taken, the source may go on", sys_ack_source(10));
}

static void shows_orphan(void) {
    say("orphan: a process leaves a child", make(0) | start(0, leaves_a_child, 0));
    say("orphan: it ended", ended(0));
    say("orphan: not to be reaped before the child has a parent", bury(0));
    say("orphan: handed over", sys_reparent(1));
    say("orphan: the dead one is reaped", sys_reap(0));
    say("orphan: the child ended", ended(1));
    say("orphan: all taken back", bury(1));
}

static void shows_fault(const char *text, void (*program)(uint32_t)) {
    int64_t failed = make(0) | start(0, program, 2);
    say(text, ended(0));
    sys_free_frame(2);
    clear(2);
    if (failed | bury(0))
        put("not all taken back\n");
}

static void shows_intruder(void) {
    say("intruder: it and a child that has not begun", make(0) | make(1) | start(0, intruder, 0));
    say("intruder: refused, of 55", ended(0));
    say("intruder: all taken back", bury(0) | sys_kill(1) | bury(1));
}

void main(void) {
    if (sys_alloc_device(0) | sys_map_device(0, NLEAF - 1, SERIAL) | sys_alloc_port(0))
        for (;;)
            ;
    say("init: runs as process", sys_get_pid());
    shows_files();
    shows_pipe();
    shows_messages();
    shows_memory();
    shows_devices();
    shows_orphan();
    shows_fault("fault: looks at null, cause", looks_at_null);
    shows_fault("fault: looks at the kernel, cause", looks_at_the_kernel);
    shows_fault("fault: looks at another's serial port, cause", looks_at_the_serial_port);
    shows_fault("fault: writes the text, cause", writes_the_text);
    shows_fault("fault: writes the kernel's page, cause", writes_the_kernels_page);
    shows_fault("fault: runs its stack, cause", runs_its_stack);
    shows_fault("fault: looks at a frame it gave back, cause", looks_at_a_frame_it_gave_back);
    shows_fault("fault: writes a frame to be read, cause", writes_a_frame_to_be_read);
    shows_fault("fault: sets the root of its memory, cause", asks_for_the_machine);
    shows_intruder();
    say("interrupt: given back", sys_free_source(10) | sys_free_vector(1));
    put("init: ends\n");
    sys_port_out(0, 0x5555);
}
