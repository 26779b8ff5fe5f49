PidT = Index(8, 64)
class S:
    cur = Bits(8)
    tab = Map(PidT, Bits(8))
def equiv(kernel, state):
    p = Var(PidT)
    return And(state.cur == kernel.cur, ForAll([p], state.tab(p) == kernel.tab[p]))
def inv_cur(kernel):
    return ULT(kernel.cur, 64)
def inv_tab(kernel):
    p = Var(PidT)
    return ForAll([p], ULT(kernel.tab[p], 200))
def get(state):
    return True, state, state.tab(state.cur) + 50
