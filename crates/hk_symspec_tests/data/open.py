class S:
    fd = Bits(8)
    refs = Bits(8)
def equiv(kernel, state):
    return And(state.fd == kernel.fd, state.refs == kernel.refs)
def prop_refs(state):
    return Implies(state.fd != 255, state.refs != 0)
def sys_open(state):
    new = state.copy()
    new.fd = 1
    return state.fd == 255, new
