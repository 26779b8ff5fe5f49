class S:
    proc_nr_fds = Bits(8)
    proc_fd = Bits(8)
def equiv(kernel, state):
    return And(state.proc_nr_fds == kernel.nr, state.proc_fd == kernel.fd)
def take(state):
    new = state.copy()
    new.proc_nr_fds = state.proc_nr_fds + 1
    new.proc_fd = 1
    return state.proc_fd == 0, new
