"""What a file is that was given as a kernel or a specification and is no such text: told on standard error, beside the refusal.

What comes in: the words of a call that was refused. What goes out: a line for each of its files that is seen to be something else, and
what makes a kernel's text of it. A file is known by the bytes that its format begins with, or by lines that only such a text has.
"""
import re
import shlex

from launcher.say import say

FRONT = 65_536
COMPILE = "compile the C text that it comes from: clang-16 -O1 -ffreestanding -S -emit-llvm -o kernel.ll {c}"
DISASSEMBLE = "make its text: clang-16 -S -emit-llvm -x ir -o kernel.ll {file}"

# The bytes that a file begins with, what it is, and what to do.
MAGIC = (
    (b"\x7fELF", "an ELF file, of an assembler or a linker", COMPILE),
    (b"BC\xc0\xde", "LLVM bitcode", DISASSEMBLE),
    (b"\xde\xc0\x17\x0b", "LLVM bitcode in a wrapper", DISASSEMBLE),
    (b"!<arch>\n", "an archive of object files", COMPILE),
    (b"!<thin>\n", "a thin archive of object files", COMPILE),
    (b"\xcf\xfa\xed\xfe", "a Mach-O file, of an assembler or a linker", COMPILE),
    (b"\xca\xfe\xba\xbe", "a Mach-O file for several processors, or a Java class", COMPILE),
    (b"MZ", "a program for Windows", COMPILE),
    (b"\0asm", "WebAssembly", COMPILE),
    (b"CPCH", "a precompiled header", COMPILE),
    (b"%PDF-", "a PDF document", "give the text itself"),
    (b"\x1f\x8b", "compressed by gzip", "unpack it: gzip -d"),
    (b"\xfd7zXZ\0", "compressed by xz", "unpack it: xz -d"),
    (b"PK\x03\x04", "a zip archive", "unpack it: unzip"),
    (b"\xff\xfe", "UTF-16 text", "write it as UTF-8"),
    (b"\xfe\xff", "UTF-16 text", "write it as UTF-8"),
    (b"\xef\xbb\xbf", "UTF-8 text behind a byte order mark", "write it without the mark"),
)
IR = re.compile(rb"(?m)^(?:; ModuleID = |source_filename = |target (?:datalayout|triple) = |define [^;]*@|@[-\w.$]+ = )")
ASSEMBLY = re.compile(rb"(?m)^\s+\.(?:text|file|globl|section|type)\b")
SPEC = re.compile(rb"(?m)^(?:def \w+\(|class \w+(?:\(\w+\))?:|\w+ = (?:Bits|Index)\()")
C = re.compile(
    rb"(?m)^#(?:include\s*[<\"]|define\s+\w|ifn?def\s+\w|pragma\s+\w)|^(?:typedef|static|extern|struct|union|enum|void|int|unsigned|char|long|u?int\d+_t)\s[^=\n]*[;{(]"
)


def kernel_kind(front):
    """What the front of a file shows that is no kernel's text, and what to do; or None."""
    for magic, what, then in MAGIC:
        if front.startswith(magic):
            return what, then
    if b"\0" in front:
        return "binary", COMPILE
    if IR.search(front):
        return None
    if ASSEMBLY.search(front):
        return "assembler text", "add -emit-llvm to clang -S: clang-16 -O1 -ffreestanding -S -emit-llvm -o kernel.ll {c}"
    if SPEC.search(front):
        return "a specification", "the kernel stands first, and then its specification"
    if C.search(front):
        return "C text", "compile it: clang-16 -O1 -ffreestanding -S -emit-llvm -o kernel.ll {c}"
    return None


def spec_kind(front):
    """The same for a specification."""
    for magic, what, then in MAGIC:
        if front.startswith(magic):
            return what, "a specification is a text of its own" if then in (COMPILE, DISASSEMBLE) else then
    if IR.search(front):
        return "LLVM text", "the kernel stands first, and then its specification"
    if not SPEC.search(front) and C.search(front):
        return "C text", "a specification is a text of its own, in the fragment of Python that docs/GUIDE.md shows"
    return None


def tell(words):
    """A line for each file of a refused call that is something else."""
    both = (kernel_kind, spec_kind)
    looks = {"verify": both, "check": both, "replay": both, "handlers": both, "premises": both, "run": (kernel_kind,)}
    for look, name in zip(looks.get(words[0], ()), words[1:]):
        try:
            with open(name, "rb") as file:
                found = look(file.read(FRONT))
        except (OSError, ValueError):
            continue
        if found:
            what, then = found
            say(f"{name} is {what}: {then.format(file=shlex.quote(name), c=shlex.quote(name) if what == 'C text' else 'FILE.c')}")
