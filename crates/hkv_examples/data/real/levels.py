LevelT = Index(32, 4)


class State:
    started = Bits(8)
    weights = Map(LevelT, Bits(32))


def equiv(kernel, state):
    w = Var(LevelT)
    return And(state.started == kernel.started, ForAll([w], state.weights(w) == kernel.weights[w]))


def inv_started(kernel):
    return ULE(kernel.started, 1)


def prop_started(state):
    return ULE(state.started, 1)


def start(state):
    new = state.copy()
    new.started = 1
    return True, new


def weight_at(state, level, place):
    known = And(state.started == 1, ULT(level, 4), ULT(place, 4))
    source = If(place == 0, level, If(place == level, 0, place))
    return True, state, If(known, state.weights(source), 0)
