# What the handlers of mbox.c do.

VmT = Index(32, 4)    # virtual machines
WordT = Index(32, 4)  # words of a mailbox

NVM = 4
NWORD = 4
CLOSED = 0
OPEN = 1

class State:
    current = VmT
    door = Map(VmT, Bits(32))
    first = Map(VmT, Bits(32))
    count = Map(VmT, Bits(32))
    word = Map((VmT, WordT), Bits(32))

def equiv(kernel, state):
    v = Var(VmT)
    w = Var(WordT)
    return And(
        state.current == kernel.current,
        ForAll([v], state.door(v) == kernel.boxes[v].f0),
        ForAll([v], state.first(v) == kernel.boxes[v].f1),
        ForAll([v], state.count(v) == kernel.boxes[v].f2),
        ForAll([v, w], state.word(v, w) == kernel.boxes[v].f3[w]))

# The running machine is one of the table.
def inv_current(kernel):
    return ULT(kernel.current, NVM)

# No mailbox holds more words than it has.
def inv_ring(kernel):
    v = Var(VmT)
    return ForAll([v], And(
        ULT(kernel.boxes[v].f1, NWORD),
        ULE(kernel.boxes[v].f2, NWORD)))

def sys_switch(state, vm):
    new = state.copy()
    new.current = vm
    return ULT(vm, NVM), new

def sys_door(state, door):
    new = state.copy()
    new.door[state.current] = door
    return Or(door == CLOSED, door == OPEN), new

def sys_send(state, vm, word):
    valid = And(state.door(vm) == OPEN, state.count(vm) != NWORD)
    new = state.copy()
    new.word[vm, URem(state.first(vm) + state.count(vm), NWORD)] = word
    new.count[vm] = state.count(vm) + 1
    return valid, new

def sys_receive(state):
    vm = state.current
    valid = state.count(vm) != 0
    new = state.copy()
    new.first[vm] = URem(state.first(vm) + 1, NWORD)
    new.count[vm] = state.count(vm) - 1
    return valid, new, If(valid, state.word(vm, state.first(vm)), -1)
