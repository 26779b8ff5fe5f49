# The state has the numbers; the equivalence says how the bytes lie in memory.
DescT = Index(32, 16)


class State:
    address = Map(DescT, Bits(64))
    length = Map(DescT, Bits(32))
    flags = Map(DescT, Bits(16))
    used = Map(DescT, Bits(16))


def equiv(kernel, state):
    d = Var(DescT)
    return And(
        ForAll([d], state.address(d) ==
            (kernel.ring[d].f0 & 0xff) << 56 | (kernel.ring[d].f0 & 0xff00) << 40
            | (kernel.ring[d].f0 & 0xff0000) << 24 | (kernel.ring[d].f0 & 0xff000000) << 8
            | LShR(kernel.ring[d].f0, 8) & 0xff000000 | LShR(kernel.ring[d].f0, 24) & 0xff0000
            | LShR(kernel.ring[d].f0, 40) & 0xff00 | LShR(kernel.ring[d].f0, 56)),
        ForAll([d], state.length(d) ==
            (kernel.ring[d].f1 & 0xff) << 24 | (kernel.ring[d].f1 & 0xff00) << 8
            | LShR(kernel.ring[d].f1, 8) & 0xff00 | LShR(kernel.ring[d].f1, 24)),
        ForAll([d], state.flags(d) == kernel.ring[d].f2 << 8 | LShR(kernel.ring[d].f2, 8)),
        ForAll([d], state.used(d) == kernel.ring[d].f3))


def describe(state, n, address, length, flags):
    valid = And(ULT(n, 16), state.used(n) == 0, length != 0)
    new = state.copy()
    new.address[n] = address
    new.length[n] = length
    new.flags[n] = flags
    new.used[n] = 1
    return valid, new


def length_of(state, n):
    return True, state, state.length(n)
