"""What the intrinsics mean, by LLVM's Language Reference, over Python's numbers; None where the result is poison."""


def signed(w, n):
    return n - (1 << w) if n >> (w - 1) else n


def clamp(w, n):
    return max(-(1 << (w - 1)), min((1 << (w - 1)) - 1, n)) % (1 << w)


def fshl(w, a, b, c):
    c %= w
    return ((a << w | b) << c >> w) % (1 << w)


def fshr(w, a, b, c):
    c %= w
    return ((a << w | b) >> c) % (1 << w)


def bswap(w, a):
    return int.from_bytes(a.to_bytes(w // 8, "little"), "big")


def bitreverse(w, a):
    return int(format(a, f"0{w}b")[::-1], 2)


def ctpop(w, a):
    return bin(a).count("1") % (1 << w)


def ctlz(w, a, poison):
    if a == 0:
        return None if poison else w % (1 << w)
    return (w - a.bit_length()) % (1 << w)


def cttz(w, a, poison):
    if a == 0:
        return None if poison else w % (1 << w)
    return ((a & -a).bit_length() - 1) % (1 << w)


def uadd_sat(w, a, b):
    return min(a + b, (1 << w) - 1)


def usub_sat(w, a, b):
    return max(a - b, 0)


def sadd_sat(w, a, b):
    return clamp(w, signed(w, a) + signed(w, b))


def ssub_sat(w, a, b):
    return clamp(w, signed(w, a) - signed(w, b))


def ushl_sat(w, a, b):
    return None if b >= w else min(a << b, (1 << w) - 1)


def sshl_sat(w, a, b):
    return None if b >= w else clamp(w, signed(w, a) << b)


def ucmp(w, a, b, to):
    return ((a > b) - (a < b)) % (1 << to)


def scmp(w, a, b, to):
    return ((signed(w, a) > signed(w, b)) - (signed(w, a) < signed(w, b))) % (1 << to)


ALL = (1, 5, 7, 8, 12, 16, 24, 31, 32, 33, 48, 64)
WHOLE = (8, 16, 32, 64)


class Row:
    """One intrinsic at one width: a function of LLVM text, and what it means."""

    def __init__(self, intrinsic, w, operands, meaning, to=None, flag=None, overload=None):
        self.name = f"{intrinsic.replace('.', '_')}_{w}" + ("" if flag is None else f"_{flag}") + ("" if to is None else f"_{to}")
        self.intrinsic, self.w, self.operands, self.to, self.flag, self.meaning = intrinsic, w, operands, to or w, flag, meaning
        self.overload = overload or f"i{w}"

    def value(self, *arguments):
        narrow = [a % (1 << self.w) for a in arguments[: self.operands]]
        more = [] if self.flag is None else [self.flag]
        more += [self.to] if self.meaning in (ucmp, scmp) else []
        return self.meaning(self.w, *narrow, *more)

    def text(self):
        t, r = f"i{self.w}", f"i{self.to}"
        names = ["a", "b", "c"][: self.operands]
        lines = [f"define i64 @{self.name}(i64 noundef %a, i64 noundef %b, i64 noundef %c) {{"]
        lines += [f"  %{n}.n = trunc i64 %{n} to {t}" for n in names] if self.w < 64 else []
        suffix = ".n" if self.w < 64 else ""
        arguments = ", ".join(f"{t} %{n}{suffix}" for n in names) + ("" if self.flag is None else f", i1 {'true' if self.flag else 'false'}")
        lines.append(f"  %r = call {r} @llvm.{self.intrinsic}.{self.overload}({arguments})")
        lines += [f"  %wide = zext {r} %r to i64", "  ret i64 %wide"] if self.to < 64 else ["  ret i64 %r"]
        return "\n".join(lines + ["}", ""])

    def declaration(self):
        more = "" if self.flag is None else ", i1"
        return f"declare i{self.to} @llvm.{self.intrinsic}.{self.overload}({', '.join([f'i{self.w}'] * self.operands)}{more})\n"


def rows(version):
    """All rows that a version of LLVM knows."""
    found = []
    for w in ALL:
        found += [Row("fshl", w, 3, fshl), Row("fshr", w, 3, fshr), Row("bitreverse", w, 1, bitreverse), Row("ctpop", w, 1, ctpop)]
        for flag in (0, 1):
            found += [Row("ctlz", w, 1, ctlz, flag=flag), Row("cttz", w, 1, cttz, flag=flag)]
        for name, meaning in (("uadd.sat", uadd_sat), ("usub.sat", usub_sat), ("sadd.sat", sadd_sat), ("ssub.sat", ssub_sat),
                              ("ushl.sat", ushl_sat), ("sshl.sat", sshl_sat)):
            found.append(Row(name, w, 2, meaning))
        if version >= 19:
            for to in (2, 8, 32):
                found += [Row("ucmp", w, 2, ucmp, to=to, overload=f"i{to}.i{w}"), Row("scmp", w, 2, scmp, to=to, overload=f"i{to}.i{w}")]
    found += [Row("bswap", w, 1, bswap) for w in (16, 32, 48, 64)]
    return found
