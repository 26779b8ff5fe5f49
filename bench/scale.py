#!/usr/bin/env python3
"""Measures deciding a kernel of the size of a small operating system: scale.py [PROGRAM] [HANDLER ..]

The kernel has 25 handlers over processes, files and pages; the specification has 25 fields, 5 invariants and 12 properties, so a
handler has 44 obligations. NPROC, NFILE and NPAGE in the environment are the sizes (8, 16 and 16), and the kernel is compiled by
CLANG (clang-16). PROGRAM is a program of hkv (the proved one of the repository, where no other is named).
Prints for each handler, decided alone, the verdict, the processor time (user and system, the start of the program counted), and the
greatest resident memory; then the same of one run over all handlers. With KEEP=FOLDER both texts stay in that folder.
"""
import os, shlex, subprocess, sys, tempfile

NPROC, NFILE, NPAGE = (int(os.environ.get(name, size)) for name, size in (('NPROC', 8), ('NFILE', 16), ('NPAGE', 16)))
NFD = NWORD = 4
root = os.path.dirname(os.path.dirname(os.path.abspath(__file__)))

PROC = ['state', 'limit', 'nr_fds', 'nr_pages', 'parent', 'msg', 'msg_from', 'quota']
FILE = ['type', 'refs', 'owner', 'size', 'offset', 'mode']
PAGE = ['kind', 'owner', 'perm', 'next', 'stamp']
SINGLE = [('current', 'PidT'), ('irq_owner', 'PidT'), ('ticks', 'Bits(32)'), ('free_pages', 'Bits(32)')]
SPEC_NAMES = {'limit': 'proc_limit'}

# A handler: its parameters, its C text, its specification. In C, `me` is the running process, `FD(fd)` its descriptor.
HANDLERS = {
    'sys_create': ('pid', '''
    if (pid >= NPROC || procs[pid].state != FREE) return -1;
    procs[pid].state = USED;
    procs[pid].limit = procs[current].limit;
    procs[pid].parent = current;
    procs[pid].quota = 0;
    return 0;''', '''
    new = state.copy()
    new.proc_state[pid] = USED
    new.proc_limit[pid] = state.proc_limit(state.current)
    new.proc_parent[pid] = state.current
    new.proc_quota[pid] = 0
    return And(ULT(pid, NPROC), state.proc_state(pid) == FREE), new'''),
    'sys_exit': ('pid', '''
    if (pid >= NPROC || pid == current || pid == irq_owner || procs[pid].state != USED) return -1;
    if (procs[pid].nr_pages != 0 || procs[pid].msg != 0) return -1;
    if (procs[pid].fds[0] != 0 || procs[pid].fds[1] != 0 || procs[pid].fds[2] != 0 || procs[pid].fds[3] != 0) return -1;
    procs[pid].state = FREE;
    return 0;''', '''
    d = Var(FdT)
    new = state.copy()
    new.proc_state[pid] = FREE
    return And(state.proc_state(pid) == USED, pid != state.current, pid != state.irq_owner,
        state.proc_nr_pages(pid) == 0, state.proc_msg(pid) == 0, ForAll([d], state.proc_fd(pid, d) == 0)), new'''),
    'sys_switch': ('pid', '''
    if (pid >= NPROC || procs[pid].state != USED) return -1;
    current = pid;
    return 0;''', '''
    new = state.copy()
    new.current = pid
    return state.proc_state(pid) == USED, new'''),
    'sys_open': ('fd file mode', '''
    if (fd >= procs[current].limit || file >= NFILE) return -1;
    if (procs[current].fds[fd] != 0 || files[file].refs != 0) return -1;
    procs[current].fds[fd] = file + 1;
    procs[current].nr_fds += 1;
    files[file].refs = 1;
    files[file].type = 1;
    files[file].owner = current;
    files[file].mode = mode;
    files[file].offset = 0;
    return 0;''', '''
    pid = state.current
    new = state.copy()
    new.proc_fd[pid, fd] = file + 1
    new.proc_nr_fds[pid] = state.proc_nr_fds(pid) + 1
    new.file_refs[file] = 1
    new.file_type[file] = 1
    new.file_owner[file] = pid
    new.file_mode[file] = mode
    new.file_offset[file] = 0
    return And(ULT(fd, NFD), ULT(fd, state.proc_limit(pid)), ULT(file, NFILE), state.proc_fd(pid, fd) == 0,
        state.file_refs(file) == 0), new'''),
    'sys_close': ('fd', '''
    if (fd >= NFD) return -1;
    uint32_t named = procs[current].fds[fd];
    if (named == 0) return -1;
    procs[current].fds[fd] = 0;
    procs[current].nr_fds -= 1;
    files[named - 1].refs -= 1;
    if (files[named - 1].refs == 0) files[named - 1].type = 0;
    return 0;''', '''
    pid = state.current
    file = state.proc_fd(pid, fd) - 1
    new = state.copy()
    new.proc_fd[pid, fd] = 0
    new.proc_nr_fds[pid] = state.proc_nr_fds(pid) - 1
    new.file_refs[file] = state.file_refs(file) - 1
    new.file_type[file] = If(state.file_refs(file) == 1, 0, state.file_type(file))
    return state.proc_fd(pid, fd) != 0, new'''),
    'sys_dup': ('oldfd newfd', '''
    if (oldfd >= NFD || newfd >= procs[current].limit) return -1;
    uint32_t named = procs[current].fds[oldfd];
    if (named == 0 || procs[current].fds[newfd] != 0) return -1;
    procs[current].fds[newfd] = named;
    procs[current].nr_fds += 1;
    files[named - 1].refs += 1;
    return 0;''', '''
    pid = state.current
    file = state.proc_fd(pid, oldfd) - 1
    new = state.copy()
    new.proc_fd[pid, newfd] = state.proc_fd(pid, oldfd)
    new.proc_nr_fds[pid] = state.proc_nr_fds(pid) + 1
    new.file_refs[file] = state.file_refs(file) + 1
    return And(ULT(newfd, NFD), ULT(newfd, state.proc_limit(pid)), state.proc_fd(pid, oldfd) != 0,
        state.proc_fd(pid, newfd) == 0), new'''),
    'sys_transfer': ('fd pid newfd', '''
    if (fd >= NFD || pid >= NPROC || pid == current || procs[pid].state != USED) return -1;
    if (newfd >= procs[pid].limit || procs[pid].fds[newfd] != 0) return -1;
    uint32_t named = procs[current].fds[fd];
    if (named == 0 || files[named - 1].refs != 1) return -1;
    procs[current].fds[fd] = 0;
    procs[current].nr_fds -= 1;
    procs[pid].fds[newfd] = named;
    procs[pid].nr_fds += 1;
    files[named - 1].owner = pid;
    return 0;''', '''
    file = state.proc_fd(state.current, fd) - 1
    new = state.copy()
    new.proc_fd[state.current, fd] = 0
    new.proc_nr_fds[state.current] = state.proc_nr_fds(state.current) - 1
    new.proc_fd[pid, newfd] = state.proc_fd(state.current, fd)
    new.proc_nr_fds[pid] = state.proc_nr_fds(pid) + 1
    new.file_owner[file] = pid
    return And(state.proc_state(pid) == USED, pid != state.current, ULT(newfd, NFD), ULT(newfd, state.proc_limit(pid)),
        state.proc_fd(pid, newfd) == 0, state.proc_fd(state.current, fd) != 0, state.file_refs(file) == 1), new'''),
    'sys_set_limit': ('pid limit', '''
    if (pid >= NPROC || procs[pid].state != USED || limit > NFD) return -1;
    procs[pid].limit = limit;
    return 0;''', '''
    new = state.copy()
    new.proc_limit[pid] = limit
    return And(state.proc_state(pid) == USED, ULE(limit, NFD)), new'''),
    'sys_get_limit': ('pid', '''
    if (pid >= NPROC || procs[pid].state != USED) return -1;
    return (int32_t)procs[pid].limit;''', '''
    valid = state.proc_state(pid) == USED
    return valid, state, If(valid, state.proc_limit(pid), -1)'''),
    'sys_set_quota': ('pid quota', '''
    if (pid >= NPROC || procs[pid].state != USED || procs[pid].parent != current) return -1;
    procs[pid].quota = quota;
    return 0;''', '''
    new = state.copy()
    new.proc_quota[pid] = quota
    return And(state.proc_state(pid) == USED, state.proc_parent(pid) == state.current), new'''),
    'sys_adopt': ('pid', '''
    if (pid >= NPROC || procs[pid].state != USED || procs[procs[pid].parent].state != FREE) return -1;
    procs[pid].parent = current;
    return 0;''', '''
    new = state.copy()
    new.proc_parent[pid] = state.current
    return And(state.proc_state(pid) == USED, state.proc_state(state.proc_parent(pid)) == FREE), new'''),
    'sys_alloc': ('page kind', '''
    if (page >= NPAGE || kind == 0 || pages[page].kind != 0) return -1;
    pages[page].kind = kind;
    pages[page].owner = current;
    pages[page].perm = 1;
    pages[page].stamp = ticks;
    procs[current].nr_pages += 1;
    free_pages -= 1;
    return 0;''', '''
    new = state.copy()
    new.page_kind[page] = kind
    new.page_owner[page] = state.current
    new.page_perm[page] = 1
    new.page_stamp[page] = state.ticks
    new.proc_nr_pages[state.current] = state.proc_nr_pages(state.current) + 1
    new.free_pages = state.free_pages - 1
    return And(ULT(page, NPAGE), kind != 0, state.page_kind(page) == 0), new'''),
    'sys_free': ('page', '''
    if (page >= NPAGE || pages[page].kind == 0 || pages[page].owner != current) return -1;
    pages[page].kind = 0;
    pages[page].perm = 0;
    procs[current].nr_pages -= 1;
    free_pages += 1;
    return 0;''', '''
    new = state.copy()
    new.page_kind[page] = 0
    new.page_perm[page] = 0
    new.proc_nr_pages[state.current] = state.proc_nr_pages(state.current) - 1
    new.free_pages = state.free_pages + 1
    return And(state.page_kind(page) != 0, state.page_owner(page) == state.current), new'''),
    'sys_give': ('page pid', '''
    if (page >= NPAGE || pages[page].kind == 0 || pages[page].owner != current) return -1;
    if (pid >= NPROC || pid == current || procs[pid].state != USED) return -1;
    pages[page].owner = pid;
    procs[current].nr_pages -= 1;
    procs[pid].nr_pages += 1;
    return 0;''', '''
    new = state.copy()
    new.page_owner[page] = pid
    new.proc_nr_pages[state.current] = state.proc_nr_pages(state.current) - 1
    new.proc_nr_pages[pid] = state.proc_nr_pages(pid) + 1
    return And(state.page_kind(page) != 0, state.page_owner(page) == state.current, pid != state.current,
        state.proc_state(pid) == USED), new'''),
    'sys_protect': ('page perm', '''
    if (page >= NPAGE || pages[page].kind == 0 || pages[page].owner != current || perm > 7) return -1;
    pages[page].perm = perm;
    return 0;''', '''
    new = state.copy()
    new.page_perm[page] = perm
    return And(state.page_kind(page) != 0, state.page_owner(page) == state.current, ULE(perm, 7)), new'''),
    'sys_link': ('page next', '''
    if (page >= NPAGE || next >= NPAGE || pages[page].kind == 0 || pages[page].owner != current) return -1;
    if (pages[next].kind == 0 || pages[next].owner != current) return -1;
    pages[page].next = next;
    return 0;''', '''
    new = state.copy()
    new.page_next[page] = next
    return And(state.page_kind(page) != 0, state.page_owner(page) == state.current,
        state.page_kind(next) != 0, state.page_owner(next) == state.current), new'''),
    'sys_write': ('page word value', '''
    if (page >= NPAGE || word >= NWORD || pages[page].kind == 0 || pages[page].owner != current) return -1;
    if ((pages[page].perm & 2) == 0) return -1;
    pages[page].words[word] = value;
    pages[page].stamp = ticks;
    return 0;''', '''
    new = state.copy()
    new.page_word[page, word] = value
    new.page_stamp[page] = state.ticks
    return And(ULT(word, NWORD), state.page_kind(page) != 0, state.page_owner(page) == state.current,
        (state.page_perm(page) & 2) != 0), new'''),
    'sys_read': ('page word', '''
    if (page >= NPAGE || word >= NWORD || pages[page].kind == 0 || pages[page].owner != current) return -1;
    return (int32_t)pages[page].words[word];''', '''
    valid = And(ULT(word, NWORD), state.page_kind(page) != 0, state.page_owner(page) == state.current)
    return valid, state, If(valid, state.page_word(page, word), -1)'''),
    'sys_copy': ('from to word', '''
    if (from >= NPAGE || to >= NPAGE || word >= NWORD) return -1;
    if (pages[from].kind == 0 || pages[from].owner != current || pages[to].kind == 0 || pages[to].owner != current) return -1;
    pages[to].words[word] = pages[from].words[word];
    return 0;''', '''
    new = state.copy()
    new.page_word[to, word] = state.page_word(from, word)
    return And(ULT(word, NWORD), state.page_kind(from) != 0, state.page_owner(from) == state.current,
        state.page_kind(to) != 0, state.page_owner(to) == state.current), new'''),
    'sys_send': ('pid msg', '''
    if (pid >= NPROC || msg == 0 || procs[pid].state != USED || procs[pid].msg != 0) return -1;
    procs[pid].msg = msg;
    procs[pid].msg_from = current;
    return 0;''', '''
    new = state.copy()
    new.proc_msg[pid] = msg
    new.proc_msg_from[pid] = state.current
    return And(msg != 0, state.proc_state(pid) == USED, state.proc_msg(pid) == 0), new'''),
    'sys_recv': ('', '''
    uint32_t msg = procs[current].msg;
    procs[current].msg = 0;
    return (int32_t)msg;''', '''
    new = state.copy()
    new.proc_msg[state.current] = 0
    return True, new, state.proc_msg(state.current)'''),
    'sys_seek': ('fd offset', '''
    if (fd >= NFD) return -1;
    uint32_t named = procs[current].fds[fd];
    if (named == 0 || offset > files[named - 1].size) return -1;
    files[named - 1].offset = offset;
    return 0;''', '''
    file = state.proc_fd(state.current, fd) - 1
    new = state.copy()
    new.file_offset[file] = offset
    return And(state.proc_fd(state.current, fd) != 0, ULE(offset, state.file_size(file))), new'''),
    'sys_extend': ('fd more', '''
    if (fd >= NFD) return -1;
    uint32_t named = procs[current].fds[fd];
    if (named == 0 || files[named - 1].mode == 0) return -1;
    files[named - 1].size += more;
    return 0;''', '''
    file = state.proc_fd(state.current, fd) - 1
    new = state.copy()
    new.file_size[file] = state.file_size(file) + more
    return And(state.proc_fd(state.current, fd) != 0, state.file_mode(file) != 0), new'''),
    'sys_tick': ('', '''
    ticks += 1;
    return 0;''', '''
    new = state.copy()
    new.ticks = state.ticks + 1
    return True, new'''),
    'sys_claim_irq': ('pid', '''
    if (irq_owner != current || pid >= NPROC || procs[pid].state != USED) return -1;
    irq_owner = pid;
    return 0;''', '''
    new = state.copy()
    new.irq_owner = pid
    return And(state.irq_owner == state.current, state.proc_state(pid) == USED), new'''),
}


def c_text():
    members = lambda names: ''.join(f'    uint32_t {name};\n' for name in names)
    lines = f'''#include <stdint.h>
enum {{ NPROC = {NPROC}, NFILE = {NFILE}, NPAGE = {NPAGE}, NFD = {NFD}, NWORD = {NWORD}, FREE = 0, USED = 1 }};
struct proc {{
{members(PROC)}    uint32_t fds[NFD];
}};
struct file {{
{members(FILE)}}};
struct page {{
{members(PAGE)}    uint32_t words[NWORD];
}};
uint32_t current = 0;
uint32_t irq_owner = 0;
uint32_t ticks = 0;
uint32_t free_pages = NPAGE;
struct proc procs[NPROC] = {{ [0] = {{.state = USED, .limit = NFD}}, [1 ... NPROC - 1] = {{.state = FREE, .limit = NFD}} }};
struct file files[NFILE];
struct page pages[NPAGE];
'''
    for name, (parameters, body, _) in HANDLERS.items():
        head = ', '.join(f'uint32_t {p}' for p in parameters.split()) or 'void'
        lines += f'\nint32_t {name}({head}) {{{body}\n}}\n'
    return lines


def py_text(handlers):
    fields = [f'    {name} = {sort}' for name, sort in SINGLE]
    equations = [f'        state.{name} == kernel.{name}' for name, _ in SINGLE]
    for names, prefix, table, sort, v in (
        (PROC, 'proc', 'procs', 'PidT', 'p'), (FILE, 'file', 'files', 'FileT', 'f'), (PAGE, 'page', 'pages', 'PageT', 'g')):
        for k, name in enumerate(names):
            fields.append(f'    {prefix}_{name} = Map({sort}, Bits(32))')
            equations.append(f'        ForAll([{v}], state.{prefix}_{name}({v}) == kernel.{table}[{v}].f{k})')
    fields += ['    proc_fd = Map((PidT, FdT), Bits(32))', '    page_word = Map((PageT, WordT), Bits(32))']
    equations += [
        f'        ForAll([p, d], state.proc_fd(p, d) == kernel.procs[p].f{len(PROC)}[d])',
        f'        ForAll([g, w], state.page_word(g, w) == kernel.pages[g].f{len(PAGE)}[w])']
    counted = ' +\n'.join(f'        If(state.proc_fd(state.file_owner(f), {d}) == f + 1, BitVecVal(1, 32), 0)' for d in range(NFD))
    owned = ' +\n'.join(
        f'        If(And(state.page_kind({g}) != 0, state.page_owner({g}) == p), BitVecVal(1, 32), 0)' for g in range(NPAGE))
    text = f'''PidT = Index(32, {NPROC})
FileT = Index(32, {NFILE})
PageT = Index(32, {NPAGE})
FdT = Index(32, {NFD})
WordT = Index(32, {NWORD})
NPROC = {NPROC}
NFILE = {NFILE}
NPAGE = {NPAGE}
NFD = {NFD}
NWORD = {NWORD}
FREE = 0
USED = 1
class State:
{chr(10).join(fields)}
def equiv(kernel, state):
    p = Var(PidT)
    f = Var(FileT)
    g = Var(PageT)
    d = Var(FdT)
    w = Var(WordT)
    return And(
{(","+chr(10)).join(equations)})
def inv_current(kernel):
    return ULT(kernel.current, NPROC)
def inv_irq(kernel):
    return ULT(kernel.irq_owner, NPROC)
def inv_procs(kernel):
    p = Var(PidT)
    d = Var(FdT)
    return ForAll([p, d], And(ULE(kernel.procs[p].f1, NFD), ULT(kernel.procs[p].f4, NPROC), ULE(kernel.procs[p].f{len(PROC)}[d], NFILE)))
def inv_files(kernel):
    f = Var(FileT)
    return ForAll([f], ULT(kernel.files[f].f2, NPROC))
def inv_pages(kernel):
    g = Var(PageT)
    return ForAll([g], And(ULT(kernel.pages[g].f1, NPROC), ULT(kernel.pages[g].f3, NPAGE)))
def prop_current(state):
    return state.proc_state(state.current) == USED
def prop_irq(state):
    return state.proc_state(state.irq_owner) == USED
def prop_owner(state):
    p = Var(PidT)
    d = Var(FdT)
    return ForAll([p, d], Implies(state.proc_fd(p, d) != 0, And(
        state.proc_state(p) == USED,
        state.file_refs(state.proc_fd(p, d) - 1) != 0,
        state.file_owner(state.proc_fd(p, d) - 1) == p)))
def prop_refs(state):
    f = Var(FileT)
    return ForAll([f], state.file_refs(f) ==
{counted})
def prop_states(state):
    p = Var(PidT)
    return ForAll([p], ULE(state.proc_state(p), USED))
def prop_limits(state):
    p = Var(PidT)
    return ForAll([p], ULE(state.proc_limit(p), NFD))
def prop_file_owner(state):
    f = Var(FileT)
    return ForAll([f], Implies(state.file_refs(f) != 0, state.proc_state(state.file_owner(f)) == USED))
def prop_file_type(state):
    f = Var(FileT)
    return ForAll([f], (state.file_refs(f) == 0) == (state.file_type(f) == 0))
def prop_page_owner(state):
    g = Var(PageT)
    return ForAll([g], Implies(state.page_kind(g) != 0, state.proc_state(state.page_owner(g)) == USED))
def prop_page_perm(state):
    g = Var(PageT)
    return ForAll([g], Implies(state.page_kind(g) == 0, state.page_perm(g) == 0))
def prop_nr_pages(state):
    p = Var(PidT)
    return ForAll([p], state.proc_nr_pages(p) ==
{owned})
def prop_msg(state):
    p = Var(PidT)
    return ForAll([p], Implies(state.proc_msg(p) != 0, state.proc_state(p) == USED))
'''
    for name in handlers:
        parameters, _, body = HANDLERS[name]
        head = ', '.join(['state'] + parameters.split())
        text += f'def {name}({head}):{body}\n'
    return text


def used(command):
    """Output, seconds of processor time, and the greatest resident memory in MiB."""
    with tempfile.TemporaryFile('w+') as out:
        child = subprocess.Popen(command, stdout=out, stderr=subprocess.STDOUT)
        _, _, usage = os.wait4(child.pid, 0)
        out.seek(0)
        return out.read(), usage.ru_utime + usage.ru_stime, usage.ru_maxrss / 1024


def main():
    program, wanted = sys.argv[1:2], sys.argv[2:] or list(HANDLERS)
    if not program:
        told = subprocess.run([f'{root}/hkv', '--program'], stdout=subprocess.PIPE, text=True, check=True,
                              env={**os.environ, 'HKV_PROVED': '1'})
        program = shlex.split(told.stdout)
    with tempfile.TemporaryDirectory() as work:
        work = os.environ.get('KEEP', work)
        os.makedirs(work, exist_ok=True)
        kernel = f'{work}/scale.ll'
        with open(f'{work}/scale.c', 'w') as file:
            file.write(c_text())
        clang = os.environ.get('CLANG', 'clang-16')
        subprocess.run([clang, '-O1', '-ffreestanding', '-S', '-emit-llvm', '-o', kernel, f'{work}/scale.c'], check=True)
        total = 0
        for names in [[name] for name in wanted] + [wanted]:
            spec = f'{work}/{names[0] if len(names) == 1 else "scale"}.py'
            with open(spec, 'w') as file:
                file.write(py_text(names))
            output, seconds, memory = used(program + ['verify', kernel, spec])
            lines = [line for line in output.splitlines() if not line.startswith(' ')]
            if len(names) > 1:
                ends = ', '.join(f'{sum(line.startswith(w) for line in lines)} {w}' for w in ('accept', 'reject', 'unknown', 'memory'))
                print(f'all {len(names)} handlers: {ends}; {seconds:.2f} s together ({total:.2f} s one by one), {memory:.0f} MiB')
            else:
                total += seconds
                print(f'{names[0]}: {"; ".join(lines)}: {seconds:.2f} s, {memory:.0f} MiB', flush=True)


main()
