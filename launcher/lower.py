"""hkv lower: brings a kernel text into the profile by the pass of lower/, run by LLVM's opt, and tells on standard error what it did.

Comes in: KERNEL.ll as clang writes it. Goes out: OUT.ll, or the text on standard output; the text that is to be verified, compiled and
linked. The status is 0 where nothing known is left outside of the profile, and 3 where something is, or the text is none.
"""
import hashlib
import os
import re
import shutil
import subprocess
import sys

from launcher import program
from launcher.places import TOP, kept
from launcher.say import Fault, say

USAGE = "hkv lower KERNEL.ll [-o OUT.ll] [--unroll N] [--single-processor] [--llvm VERSION]"
HELP = """\
Writes the kernel text in which what the profile lacks is replaced by what it has, on standard output or into OUT.ll, and says each
replacement on standard error, and what is left with its reason. What is written is what is to be verified, compiled and linked.

  -o OUT.ll             write the text into this file
  --unroll N            make a loop of at most N rounds so many copies of its body
  --single-processor    make volatile and atomic accesses plain, under the premise that one processor runs the handlers and nothing
                        interrupts them; the premise is said, and stands in the text
  --llvm VERSION        use LLVM 15, 16 or 19; without it the one that wrote the text, or else one that is there

Statuses: 0 nothing known is left; 3 something is, and the text is written, or KERNEL.ll is no text that LLVM reads, and nothing is; 4 words;
5 KERNEL.ll could not be read; 6 OUT.ll could not be written; 70 the pass could not be built or run.
"""
VERSIONS = ("16", "19", "15")  # that the pass builds against, the first that is there being taken
SOURCES = os.path.join(TOP, "lower")
READ, UNREADABLE, UNWRITABLE = 3, 5, 6


class Usage(Exception):
    """Words that have no form."""


class Words:
    """The words of a call."""

    def __init__(self, words):
        self.kernel = self.out = self.llvm = self.unroll = None
        self.single = False
        rest = list(words)
        while rest:
            self.take(rest.pop(0), rest)
        if self.kernel is None:
            raise Usage

    def take(self, word, rest):
        if word == "--single-processor":
            self.single = True
        elif word in ("-o", "--unroll", "--llvm"):
            if not rest:
                raise Usage
            self.take_value(word, rest.pop(0))
        elif word.startswith("-") or self.kernel is not None:
            raise Usage
        else:
            self.kernel = word

    def take_value(self, word, value):
        if word == "-o":
            self.out = value
        elif word == "--llvm" and value in VERSIONS:
            self.llvm = value
        elif word == "--unroll" and re.fullmatch(r"[1-9]\d{0,5}", value):
            self.unroll = value
        else:
            raise Usage

    def passes(self):
        """The pass with its options, as opt spells it."""
        options = ([f"unroll={self.unroll}"] if self.unroll else []) + (["single-processor"] if self.single else [])
        return "hkv-lower" + (f"<{';'.join(options)}>" if options else "")


def run(words):
    if words[:1] and words[0] in ("--help", "-h"):
        from launcher import help as pages

        return pages.run(["lower"])
    try:
        asked = Words(words)
    except Usage:
        return program.misused(USAGE)
    try:
        with open(asked.kernel, encoding="utf-8", errors="replace") as file:
            text = file.read()
    except OSError as error:
        say(f"{asked.kernel}: {error.strerror}")
        return UNREADABLE
    if asked.out and not os.access(os.path.dirname(os.path.abspath(asked.out)), os.W_OK):
        say(f"{asked.out}: its folder cannot be written")
        return UNWRITABLE
    return lower(asked, candidates(asked, text))


def candidates(asked, text):
    """The versions of LLVM to try: the one asked for; else the one that wrote the text, and then the others that are there."""
    if asked.llvm:
        return [asked.llvm]
    wrote = re.search(r"clang version (\d+)\.", text)
    order = ([wrote.group(1)] if wrote and wrote.group(1) in VERSIONS else []) + list(VERSIONS)
    there = [version for version in dict.fromkeys(order) if not missing(version)]
    return there or [order[0]]


def lower(asked, versions):
    """Runs opt of the first version that reads the text; the exit status."""
    first = None
    for version in versions:
        done = opt(asked, version)
        counts = re.search(r"^hkv: \d+ replaced, (\d+) left$", done.stderr, re.M)
        if done.returncode == 0 and counts:
            sys.stderr.write(done.stderr)
            sys.stdout.write(done.stdout)
            return READ if counts.group(1) != "0" else 0
        if done.returncode < 0 or "PLEASE submit a bug report" in done.stderr:
            raise Fault(f"opt-{version} ended in its middle on {asked.kernel}, and nothing is written:\n{done.stderr[-2000:]}")
        first = first or done
    sys.stderr.write(first.stderr)
    say(f"{asked.kernel} is no text that LLVM {', '.join(versions)} reads; nothing is written")
    return READ


def opt(asked, version):
    command = [f"opt-{version}", "-load-pass-plugin", plugin(version), f"-passes={asked.passes()}", "-S", asked.kernel, "-o", asked.out or "-"]
    return subprocess.run(command, capture_output=True, text=True)


# ---- the plugin


def missing(version):
    """The packages of Debian that building and running needs and that are not here."""
    needs = {f"opt-{version}": f"llvm-{version}", f"llvm-config-{version}": f"llvm-{version}-dev", compiler(): "g++"}
    packages = [package for command, package in needs.items() if not shutil.which(command)]
    if f"llvm-{version}-dev" not in packages and not os.path.exists(headers(version)):
        packages.append(f"llvm-{version}-dev")
    return packages


def compiler():
    return os.environ.get("CXX", "c++")


def headers(version):
    """A header of LLVM that the plugin includes."""
    folder = subprocess.run([f"llvm-config-{version}", "--includedir"], capture_output=True, text=True).stdout.strip()
    return os.path.join(folder, "llvm", "Passes", "PassPlugin.h")


def plugin(version):
    """The built plugin for a version, which is built where there is none of these sources."""
    lacking = missing(version)
    if lacking:
        raise Fault(f"hkv lower runs LLVM's opt with a pass of its own, and builds that once. Install {' '.join(lacking)} (apt-get install {' '.join(lacking)})")
    folder = kept("lower", key(version))
    built = os.path.join(folder, "hkv-lower.so")
    if not os.path.exists(built):
        build(version, folder, built)
    return built


def key(version):
    """Names the sources and the LLVM that the plugin is made from."""
    digest = hashlib.sha256()
    for name in sorted(os.listdir(SOURCES)):
        with open(os.path.join(SOURCES, name), "rb") as file:
            digest.update(name.encode() + b"\0" + file.read() + b"\0")
    exact = subprocess.run([f"llvm-config-{version}", "--version"], capture_output=True, text=True).stdout.strip()
    return f"{exact}-{digest.hexdigest()[:16]}"


def build(version, folder, built):
    from launcher import locks

    with locks.held(f"lower-{version}", waiting="another call is building the pass; waiting for it"):
        if os.path.exists(built):
            return
        os.makedirs(folder, exist_ok=True)
        say(f"building the pass for LLVM {version}, once; it takes less than a minute")
        part = built + ".part"
        done = subprocess.run([os.path.join(SOURCES, "build.sh"), version, part], capture_output=True, text=True)
        if done.returncode != 0:
            raise Fault(f"the pass was not built:\n{done.stderr[-2000:]}")
        os.replace(part, built)
