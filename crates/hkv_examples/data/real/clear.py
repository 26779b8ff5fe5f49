PidT = Index(32, 8)
RegisterT = Index(32, 6)


class State:
    current = PidT
    state = Map(PidT, Bits(32))
    parent = Map(PidT, PidT)
    registers = Map((PidT, RegisterT), Bits(64))


def equiv(kernel, state):
    p = Var(PidT)
    r = Var(RegisterT)
    return And(
        state.current == kernel.current,
        ForAll([p], state.state(p) == kernel.procs[p].f0),
        ForAll([p], state.parent(p) == kernel.procs[p].f1),
        ForAll([p, r], state.registers(p, r) == kernel.procs[p].f2[r]))


def reap(state, pid):
    valid = And(ULT(pid, 8), pid != state.current, state.parent(pid) == state.current)
    new = state.copy()
    new.state[pid] = 0
    new.parent[pid] = 0
    new.registers[pid, 0] = 0
    new.registers[pid, 1] = 0
    new.registers[pid, 2] = 0
    new.registers[pid, 3] = 0
    new.registers[pid, 4] = 0
    new.registers[pid, 5] = 0
    return valid, new
