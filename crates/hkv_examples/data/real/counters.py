PidT = Index(32, 8)


class State:
    spent = Map(PidT, Bits(32))
    quota = Map(PidT, Bits(32))
    balance = Map(PidT, Bits(32))


def equiv(kernel, state):
    p = Var(PidT)
    return And(
        ForAll([p], state.spent(p) == kernel.spent[p]),
        ForAll([p], state.quota(p) == kernel.quota[p]),
        ForAll([p], state.balance(p) == kernel.balance[p]))


def charge(state, pid, by):
    wide = ZeroExt(1, state.spent(pid)) + ZeroExt(1, by)
    new = state.copy()
    new.spent[pid] = If(Extract(32, 32, wide) == 1, 0xffffffff, Extract(31, 0, wide))
    new.quota[pid] = If(ULT(state.quota(pid), by), 0, state.quota(pid) - by)
    return ULT(pid, 8), new


def settle(state, pid, by):
    wide = SignExt(1, state.balance(pid)) + SignExt(1, by)
    new = state.copy()
    new.balance[pid] = If(wide > 0x7fffffff, 0x7fffffff, If(wide < -0x80000000, -0x80000000, Extract(31, 0, wide)))
    return ULT(pid, 8), new
