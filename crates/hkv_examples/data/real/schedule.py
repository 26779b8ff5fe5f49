# The task that runs next is ready, and no ready one lies between the running one and it.
class State:
    ready = Bits(32)
    running = Bits(32)


def equiv(kernel, state):
    return And(state.ready == kernel.ready, state.running == kernel.running)


def inv_running(kernel):
    return ULT(kernel.running, 32)


def prop_running(state):
    return ULT(state.running, 32)


def next_task(state):
    valid = state.ready != 0
    # Those above the running one come first, then all from 0 on.
    above = state.ready & ~((2 << state.running) - 1)
    first = If(above != 0, above, state.ready)
    lowest = first & -first
    by16 = If(lowest & 0xffff0000 != 0, BitVecVal(16, 32), 0)
    by8 = If(lowest & 0xff00ff00 != 0, BitVecVal(8, 32), 0)
    by4 = If(lowest & 0xf0f0f0f0 != 0, BitVecVal(4, 32), 0)
    by2 = If(lowest & 0xcccccccc != 0, BitVecVal(2, 32), 0)
    by1 = If(lowest & 0xaaaaaaaa != 0, BitVecVal(1, 32), 0)
    task = by16 + by8 + by4 + by2 + by1
    new = state.copy()
    new.running = task
    return valid, new, If(valid, task, -1)


def wake(state, task):
    new = state.copy()
    new.ready = state.ready | (1 << task)
    return ULT(task, 32), new
