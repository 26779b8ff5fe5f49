PidT = Index(32, 4)
FdT = Index(32, 4)
FileT = Index(32, 4)

class KernelState:
    current = PidT
    proc_fd_table = Map((PidT, FdT), Bits(32))
    proc_nr_fds = Map(PidT, Bits(32))
    file_nr_fds = Map(FileT, Bits(32))

def equiv(kernel, state):
    p = Var(PidT)
    d = Var(FdT)
    f = Var(FileT)
    return And(
        state.current == kernel.current,
        ForAll([p, d], state.proc_fd_table(p, d) == kernel.procs[p].f1[d]),
        ForAll([p], state.proc_nr_fds(p) == kernel.procs[p].f0),
        ForAll([f], state.file_nr_fds(f) == kernel.file_refs[f]))

def inv_current(kernel):
    return ULT(kernel.current, 4)

def sys_dup(state, oldfd, newfd):
    pid = state.current
    file = state.proc_fd_table(pid, oldfd)
    valid = And(ULT(oldfd, 4), ULT(newfd, 4), ULT(file - 1, 4),
        state.proc_fd_table(pid, newfd) == 0)   # the new one is free
    new = state.copy()
    new.proc_fd_table[pid, newfd] = file
    new.proc_nr_fds[pid] = state.proc_nr_fds(pid) + 1
    new.file_nr_fds[file - 1] = state.file_nr_fds(file - 1) + 1
    return valid, new
