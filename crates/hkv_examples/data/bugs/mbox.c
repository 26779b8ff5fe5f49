/* Mailboxes: each virtual machine has a ring of words that others send to it. */

#include <stdint.h>

#define NVM 4   /* virtual machines */
#define NWORD 4 /* words of a mailbox */

enum door { CLOSED, OPEN };

struct mbox {
    enum door door;
    uint32_t first; /* the oldest word */
    uint32_t count; /* words that are not received yet */
    uint32_t words[NWORD];
};

uint32_t current;
struct mbox boxes[NVM];

/* The place for the next word. */
static uint32_t *behind(struct mbox *box) {
    return &box->words[(box->first + box->count) % NWORD];
}

/* Goes on as the machine vm. */
int32_t sys_switch(uint32_t vm) {
    if (vm >= NVM)
        return -1;
    current = vm;
    return 0;
}

/* Opens or closes the mailbox of the caller. */
int32_t sys_door(uint32_t door) {
    if (door != CLOSED && door != OPEN)
        return -1;
    boxes[current].door = door;
    return 0;
}

/* Sends a word to the machine vm. */
int32_t sys_send(uint32_t vm, uint32_t word) {
    if (vm >= NVM || boxes[vm].door != OPEN)
        return -1;
    if (boxes[vm].count == NWORD)
        return -1;
    *behind(&boxes[vm]) = word;
    boxes[vm].count += 1;
    return 0;
}

/* Takes the oldest word out of the mailbox of the caller. */
int32_t sys_receive(void) {
    struct mbox *box = &boxes[current];
    if (box->count == 0)
        return -1;
    uint32_t word = box->words[box->first];
    box->first = (box->first + 1) % NWORD;
    box->count -= 1;
    return (int32_t)word;
}
