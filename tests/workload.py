"""The texts of a generated kernel of N handlers, by the rules of docs/FORMATS.md ("Generated workloads").

They are written anew here and not taken from the program: what `hkv bench N` counts is compared with what `hkv verify` says of these.
"""

KERNEL_HEAD = """\
%struct.proc = type {{ i32, i32 }}
@procs = global [{n} x %struct.proc] zeroinitializer, align 4
"""
HANDLER = """\
define i32 @s{k}(i32 %pid, i32 %x) {{
  %c = icmp {order} i32 %pid, {n}
  br i1 %c, label %ok, label %bad
ok:
  %i = zext i32 %pid to i64
  %p = getelementptr inbounds [{n} x %struct.proc], ptr @procs, i64 0, i64 %i, i32 {field}
  %v = load i32, ptr %p, align 4
  %w = {operation} i32 %v, %x
  store i32 %w, ptr %p, align 4
  ret i32 0
bad:
  ret i32 -1
}}
"""
SPEC_HEAD = """\
PidT = Index(32, {n})
class S:
    a = Map(PidT, Bits(32))
    b = Map(PidT, Bits(32))
def equiv(kernel, state):
    p = Var(PidT)
    return And(ForAll([p], state.a(p) == kernel.procs[p].f0), ForAll([p], state.b(p) == kernel.procs[p].f1))
"""
TRANSITION = """\
def s{k}(state, pid, x):
    new = state.copy()
    new.{name}[pid] = state.{name}(pid) {mark} x
    return ULT(pid, {n}), new
"""


def texts(n):
    """The kernel and the specification."""
    kernel, spec = KERNEL_HEAD.format(n=n), SPEC_HEAD.format(n=n)
    for k in range(n):
        kernel += HANDLER.format(
            k=k, n=n, order="ule" if k % 4 == 3 else "ult", field=k % 2, operation=("add", "xor", "sub")[k % 3]
        )
        spec += TRANSITION.format(k=k, n=n, name="ab"[k % 2], mark="+^-"[k % 3])
    return kernel, spec
