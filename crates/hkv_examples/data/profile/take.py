class State:
    busy = Bits(8)

def equiv(kernel, state):
    return state.busy == kernel.busy

def take(state):
    new = state.copy()
    new.busy = 1
    return state.busy == 0, new
