class S:
    a = Bits(8)
    b = Bits(8)
def equiv(kernel, state):
    return And(state.a == kernel.a, state.b == kernel.b)
def pick(state, c):
    new = state.copy()
    new.a = If(c == 1, 1, state.a)
    new.b = If(c == 1, 1, state.a)
    return True, new
