# clang writes the struct as six bytes: bits 0 to 31 of the frame are the first four, the fifth has the rest of it and the flags.
EntryT = Index(32, 16)


class State:
    frame = Map(EntryT, Bits(40))
    present = Map(EntryT, Bits(1))
    writable = Map(EntryT, Bits(1))


def equiv(kernel, state):
    e = Var(EntryT)
    return And(
        ForAll([e], state.frame(e) ==
            ZeroExt(32, kernel.table[e].f0[0]) | ZeroExt(32, kernel.table[e].f0[1]) << 8 | ZeroExt(32, kernel.table[e].f0[2]) << 16
            | ZeroExt(32, kernel.table[e].f0[3]) << 24 | ZeroExt(32, kernel.table[e].f0[4] & 0x0f) << 32),
        ForAll([e], state.present(e) == Extract(4, 4, kernel.table[e].f0[4])),
        ForAll([e], state.writable(e) == Extract(5, 5, kernel.table[e].f0[4])))


def inv_frames(kernel):
    e = Var(EntryT)
    return ForAll([e], Implies(Extract(4, 4, kernel.table[e].f0[4]) == 1,
        And(kernel.table[e].f0[4] & 0x0f == 0, kernel.table[e].f0[3] == 0, kernel.table[e].f0[2] == 0, ULT(kernel.table[e].f0[1], 16))))


def prop_frames(state):
    e = Var(EntryT)
    return ForAll([e], Implies(state.present(e) == 1, ULT(state.frame(e), 4096)))


def map_page(state, n, frame, writable):
    new = state.copy()
    new.frame[n] = ZeroExt(8, frame)
    new.writable[n] = If(writable != 0, BitVecVal(1, 1), 0)
    new.present[n] = 1
    return And(ULT(n, 16), ULT(frame, 4096), state.present(n) == 0), new


def protect(state, n):
    new = state.copy()
    new.writable[n] = 0
    return And(ULT(n, 16), state.present(n) == 1), new
