PidT = Index(32, 8)


class State:
    low = Map(PidT, Bits(32))
    high = Map(PidT, Bits(32))


def equiv(kernel, state):
    p = Var(PidT)
    return And(
        ForAll([p], state.low(p) == kernel.windows[p].f0),
        ForAll([p], state.high(p) == kernel.windows[p].f1))


def clip(state, pid, low, high):
    begin = If(ULT(state.low(pid), low), low, state.low(pid))
    end = If(ULT(high, state.high(pid)), high, state.high(pid))
    changes = And(ULT(pid, 8), ULT(begin, end))
    new = state.copy()
    new.low[pid] = If(changes, begin, state.low(pid))
    new.high[pid] = If(changes, end, state.high(pid))
    return True, new, If(changes, end - begin, 0)
