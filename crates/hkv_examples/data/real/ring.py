SlotT = Index(32, 8)
HalfT = Index(32, 2)


class State:
    head = Bits(32)
    tail = Bits(32)
    sender = Map(SlotT, Bits(32))
    kind = Map(SlotT, Bits(32))
    body = Map((SlotT, HalfT), Bits(64))
    out_sender = Bits(32)
    out_kind = Bits(32)
    out_body = Map(HalfT, Bits(64))
    in_sender = Bits(32)
    in_kind = Bits(32)
    in_body = Map(HalfT, Bits(64))


def equiv(kernel, state):
    s = Var(SlotT)
    h = Var(HalfT)
    return And(
        state.head == kernel.head,
        state.tail == kernel.tail,
        ForAll([s], state.sender(s) == kernel.ring[s].f0),
        ForAll([s], state.kind(s) == kernel.ring[s].f1),
        ForAll([s, h], state.body(s, h) == kernel.ring[s].f2[h]),
        state.out_sender == kernel.outgoing.f0,
        state.out_kind == kernel.outgoing.f1,
        ForAll([h], state.out_body(h) == kernel.outgoing.f2[h]),
        state.in_sender == kernel.incoming.f0,
        state.in_kind == kernel.incoming.f1,
        ForAll([h], state.in_body(h) == kernel.incoming.f2[h]))


def inv_filled(kernel):
    return ULE(kernel.head - kernel.tail, 8)


def ring_put(state):
    at = state.head & 7
    new = state.copy()
    new.sender[at] = state.out_sender
    new.kind[at] = state.out_kind
    new.body[at, 0] = state.out_body(0)
    new.body[at, 1] = state.out_body(1)
    new.head = state.head + 1
    return ULT(state.head - state.tail, 8), new


def ring_take(state):
    at = state.tail & 7
    new = state.copy()
    new.in_sender = state.sender(at)
    new.in_kind = state.kind(at)
    new.in_body[0] = state.body(at, 0)
    new.in_body[1] = state.body(at, 1)
    new.tail = state.tail + 1
    return state.head != state.tail, new
