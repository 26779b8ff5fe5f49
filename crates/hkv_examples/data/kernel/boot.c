/* Boot, traps and the hooks of kernel.c, not verified. What comes in: the processor after reset, and each trap. What goes
 * out: calls of the handlers, and the registers of the process that runs next. It reads `current` and changes no table. */

#include <stdint.h>
#include "calls.h"
#include "sizes.h"

extern uint32_t current;
void trap_entry(void);

typedef int64_t handler(uint32_t, uint32_t, uint32_t, uint32_t, uint32_t, uint32_t);

/* Results of 32 bits come back in a whole register with their sign, as those of 64. */
#define DECLARE(name) handler name;
CALLS(DECLARE)
#define ADDRESS(name) name,
static handler *const handlers[] = {CALLS(ADDRESS)};
#define NAME(name) #name,
static const char *const names[] = {CALLS(NAME)};
enum { NHANDLER = sizeof handlers / sizeof *handlers, TIMER = NHANDLER - 3, INTERRUPT, FAULT };

static uint64_t contexts[NPROC][32]; /* of each process the program counter, and the registers from x1 on */
static uint64_t entered[NHANDLER];   /* how often each handler was entered */

#define READ(csr) ({ uint64_t value; __asm__ volatile("csrr %0, " #csr : "=r"(value)); value; })
#define SET(csr, value) __asm__ volatile("csrw " #csr ", %0" : : "r"((uint64_t)(value)) : "memory")

static volatile uint8_t *const serial = (uint8_t *)SERIAL_AT;
static volatile uint64_t *const time_now = (uint64_t *)0x200bff8; /* 10 million a second */
static volatile uint64_t *const time_next = (uint64_t *)0x2004000;
static volatile uint32_t *const irq_priority = (uint32_t *)0xc000000;
static volatile uint32_t *const irq_enabled = (uint32_t *)0xc002000;
static volatile uint32_t *const irq_threshold = (uint32_t *)0xc200000;
static volatile uint32_t *const irq_claim = (uint32_t *)0xc200004;
static volatile uint32_t *const power = (uint32_t *)0x100000;

static void put(const char *text) {
    for (; *text; text++) {
        while (!(serial[5] & 0x20))
            ;
        *serial = *text;
    }
}

static void put_number(uint64_t number) {
    if (number >= 10)
        put_number(number / 10);
    put((char[]){'0' + number % 10, 0});
}

static int64_t enter(uint64_t number, const uint64_t *a) {
    entered[number]++;
    return handlers[number](a[0], a[1], a[2], a[3], a[4], a[5]);
}

/* ---- Hooks ---- */

void context_start(uint32_t pid, uint32_t entry, uint32_t stack, uint32_t arg) {
    for (int i = 0; i < 32; i++)
        contexts[pid][i] = 0;
    contexts[pid][0] = entry;
    contexts[pid][2] = stack;
    contexts[pid][10] = arg;
}

void irq_enable(uint32_t source) {
    irq_priority[source] = 1;
    irq_enabled[0] |= 1u << source;
}

void irq_disable(uint32_t source) {
    irq_enabled[0] &= ~(1u << source);
}

void irq_complete(uint32_t source) {
    *irq_claim = source;
}

/* Port 0 ends the machine: before that, how often each handler was entered. Port 1 is a selector of the board's. */
void port_out(uint32_t port, uint32_t value) {
    if (port == 1)
        *(volatile uint16_t *)0x10100008 = value;
    if (port != 0)
        return;
    for (int i = 0; i < NHANDLER; i++) {
        put("entered ");
        put(names[i]);
        put(" ");
        put_number(entered[i]);
        put("\n");
    }
    *power = value;
}

/* ---- Boot and traps ---- */

static uint64_t *go(void) {
    SET(satp, 8ull << 60 | ((ROOTS_AT >> 12) + current));
    __asm__ volatile("sfence.vma" : : : "memory");
    return contexts[current];
}

uint64_t *boot(void) {
    SET(pmpaddr0, -1ull >> 10); /* user mode may use all of memory that its tables lead to */
    SET(pmpcfg0, 0x1f);
    SET(mtvec, trap_entry);
    SET(mie, 1 << 7 | 1 << 11); /* timer, devices */
    SET(mstatus, 1 << 7);       /* to user mode, with interrupts */
    *irq_threshold = 0;
    *time_next = *time_now + 100000;
    context_start(INIT, IMAGE_SEEN_AT, IMAGE_SEEN_AT + LEAFE * 4096, 0);
    return go();
}

uint64_t *trap(uint64_t *context) {
    static const uint64_t none[6];
    uint64_t cause = READ(mcause);
    if (cause == 8) {
        context[0] += 4;
        context[10] = context[17] < TIMER ? enter(context[17], context + 10) : -1;
    } else if (cause == (1ull << 63 | 7)) {
        *time_next = *time_now + 100000;
        enter(TIMER, none);
    } else if (cause == (1ull << 63 | 11)) {
        uint64_t source = *irq_claim;
        if (enter(INTERRUPT, (uint64_t[6]){source}) != 0 && source != 0) {
            irq_disable(source);
            irq_complete(source);
        }
    } else if (enter(FAULT, (uint64_t[6]){cause}) != 0) {
        put("INIT failed: cause ");
        put_number(cause);
        put(", at ");
        put_number(context[0] - IMAGE_SEEN_AT);
        put(" of the image\n");
        *power = 0x13333;
    }
    return go();
}
