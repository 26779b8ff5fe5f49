class State:
    root = Bits(32)

def equiv(kernel, state):
    return state.root == kernel.root

def set_root(state, page):
    new = state.copy()
    new.root = page
    return True, new
