# A set has at most four elements where four times its lowest element can be taken away, and nothing is left.
ProcT = Index(32, 16)


class State:
    rights = Map(ProcT, Bits(64))


def equiv(kernel, state):
    p = Var(ProcT)
    return ForAll([p], state.rights(p) == kernel.rights[p])


def grant(state, giver, taker, given):
    one = given & (given - 1)
    two = one & (one - 1)
    three = two & (two - 1)
    four = three & (three - 1)
    valid = And(ULT(giver, 16), ULT(taker, 16), given & ~state.rights(giver) == 0, four == 0)
    new = state.copy()
    new.rights[taker] = state.rights(taker) | given
    return valid, new
