# The lowest bit that is set names the page that is taken; its number is counted by halves.
PageT = Index(32, 32)


class State:
    free_pages = Bits(32)
    owner = Map(PageT, Bits(32))


def equiv(kernel, state):
    p = Var(PageT)
    return And(state.free_pages == kernel.free_pages, ForAll([p], state.owner(p) == kernel.owner[p]))


def page_alloc(state, pid):
    lowest = state.free_pages & -state.free_pages
    valid = And(state.free_pages != 0, pid != 0)
    by16 = If(lowest & 0xffff0000 != 0, BitVecVal(16, 32), 0)
    by8 = If(lowest & 0xff00ff00 != 0, BitVecVal(8, 32), 0)
    by4 = If(lowest & 0xf0f0f0f0 != 0, BitVecVal(4, 32), 0)
    by2 = If(lowest & 0xcccccccc != 0, BitVecVal(2, 32), 0)
    by1 = If(lowest & 0xaaaaaaaa != 0, BitVecVal(1, 32), 0)
    page = by16 + by8 + by4 + by2 + by1
    new = state.copy()
    new.free_pages = state.free_pages & ~lowest
    new.owner[page] = pid
    return valid, new, If(valid, page, -1)


def page_free(state, page, pid):
    valid = And(ULT(page, 32), pid != 0, state.owner(page) == pid)
    new = state.copy()
    new.owner[page] = 0
    new.free_pages = state.free_pages | (1 << page)
    return valid, new
