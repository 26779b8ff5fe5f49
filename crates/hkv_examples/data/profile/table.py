EntryT = Index(32, 16)

class State:
    limit = Map(EntryT, Bits(32))

def equiv(kernel, state):
    i = Var(EntryT)
    return ForAll([i], state.limit(i) == kernel.table[i].f1)

def set(state, i):
    new = state.copy()
    new.limit[i] = 2
    return True, new
