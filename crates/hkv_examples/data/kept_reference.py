# What the handlers of files.c do.

PidT = Index(32, 8)    # processes
FdT = Index(32, 4)     # descriptors of a process
FileT = Index(32, 16)  # files

NPROC = 8
NFD = 4
NFILE = 16
FREE = 0
USED = 1

class State:
    current = PidT
    proc_state = Map(PidT, Bits(32))
    proc_limit = Map(PidT, Bits(32))
    proc_fd = Map((PidT, FdT), Bits(32))
    file_refs = Map(FileT, Bits(32))
    file_owner = Map(FileT, Bits(32))

def equiv(kernel, state):
    p = Var(PidT)
    d = Var(FdT)
    f = Var(FileT)
    return And(
        state.current == kernel.current,
        ForAll([p], state.proc_state(p) == kernel.procs[p].f0),
        ForAll([p], state.proc_limit(p) == kernel.procs[p].f1),
        ForAll([p, d], state.proc_fd(p, d) == kernel.procs[p].f2[d]),
        ForAll([f], state.file_refs(f) == kernel.files[f].f0),
        ForAll([f], state.file_owner(f) == kernel.files[f].f1))

# The running process is one of the table.
def inv_current(kernel):
    return ULT(kernel.current, NPROC)

# No limit is over the descriptors that there are.
def inv_limit(kernel):
    p = Var(PidT)
    return ForAll([p], ULE(kernel.procs[p].f1, NFD))

# A descriptor is free or names a file.
def inv_fd(kernel):
    p = Var(PidT)
    d = Var(FdT)
    return ForAll([p, d], ULE(kernel.procs[p].f2[d], NFILE))

# The running process is in use, and so is each one that has a descriptor.
def prop_used(state):
    p = Var(PidT)
    return And(
        state.proc_state(state.current) == USED,
        ForAll([p], Or(state.proc_state(p) == USED, And(
            state.proc_fd(p, 0) == 0,
            state.proc_fd(p, 1) == 0,
            state.proc_fd(p, 2) == 0,
            state.proc_fd(p, 3) == 0))))

# No limit is over the descriptors that there are.
def prop_limit(state):
    p = Var(PidT)
    return ForAll([p], ULE(state.proc_limit(p), NFD))

def sys_close(state, fd):
    pid = state.current
    file = state.proc_fd(pid, fd) - 1
    new = state.copy()
    new.proc_fd[pid, fd] = 0
    new.file_refs[file] = state.file_refs(file) - 1
    return state.proc_fd(pid, fd) != 0, new

