/* A ring of messages: one is put in by copying a struct, and taken out by copying it back. */
#include <stdint.h>

#define NSLOT 8

struct message {
    uint32_t sender, kind;
    uint64_t body[2];
};

struct message ring[NSLOT];
struct message outgoing, incoming;
uint32_t head, tail; /* put at head, taken at tail; head - tail are in the ring */

int32_t ring_put(void) {
    if (head - tail >= NSLOT)
        return -1;
    ring[head % NSLOT] = outgoing;
    head++;
    return 0;
}

int32_t ring_take(void) {
    if (head == tail)
        return -1;
    incoming = ring[tail % NSLOT];
    tail++;
    return 0;
}
