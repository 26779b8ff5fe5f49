# What the handlers of pages.c do.

VmT = Index(32, 2)     # virtual machines
EntryT = Index(32, 4)  # entries of a table
PageT = Index(64, 8)   # pages

NVM = 2
NENTRY = 4
NPAGE = 8
FREE = 0
MAPPED = 1
WRITE_EXECUTE = 6

class State:
    entry_page = Map((VmT, EntryT), Bits(64))
    entry_may = Map((VmT, EntryT), Bits(32))
    page_owner = Map(PageT, Bits(8))
    page_use = Map(PageT, Bits(32))

def equiv(kernel, state):
    v = Var(VmT)
    e = Var(EntryT)
    p = Var(PageT)
    return And(
        ForAll([v, e], state.entry_page(v, e) == kernel.table[v][e].f0),
        ForAll([v, e], state.entry_may(v, e) == kernel.table[v][e].f1),
        ForAll([p], state.page_owner(p) == kernel.pages[p].f0),
        ForAll([p], state.page_use(p) == kernel.pages[p].f1))

# Each entry names a page.
def inv_page(kernel):
    v = Var(VmT)
    e = Var(EntryT)
    return ForAll([v, e], ULT(kernel.table[v][e].f0, NPAGE))

# No page is written and executed.
def prop_write_or_execute(state):
    v = Var(VmT)
    e = Var(EntryT)
    return ForAll([v, e], state.entry_may(v, e) & WRITE_EXECUTE != WRITE_EXECUTE)

def sys_map(state, vm, at, page, may):
    allowed = And(may != 0, ULE(may, 7), may & WRITE_EXECUTE != WRITE_EXECUTE)
    valid = And(
        ULT(vm, NVM), ULT(at, NENTRY), ULT(page, NPAGE), allowed,
        state.entry_may(vm, at) == 0,
        state.page_use(page) == FREE)
    new = state.copy()
    new.entry_page[vm, at] = page
    new.entry_may[vm, at] = may
    new.page_owner[page] = Extract(7, 0, vm)
    new.page_use[page] = MAPPED
    return valid, new

def sys_unmap(state, vm, at):
    new = state.copy()
    new.entry_may[vm, at] = 0
    new.page_use[state.entry_page(vm, at)] = FREE
    return state.entry_may(vm, at) != 0, new

def sys_protect(state, vm, at, may):
    allowed = And(may != 0, ULE(may, 7), may & WRITE_EXECUTE != WRITE_EXECUTE)
    new = state.copy()
    new.entry_may[vm, at] = may
    return And(state.entry_may(vm, at) != 0, allowed), new
