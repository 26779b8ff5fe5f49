"""verify --jobs N, verify --hosts FILE: each handler is decided by a process of its own, and the lines are joined.

What comes in: both texts, which the program reads, and the handlers to look at. What goes out: on standard output byte for byte what one
call prints, each line as soon as those before it are known, with that call's status and certificate. A handler whose process was ended
is told on standard error, and the status is 70; the lines of the others stand.

How: job 0 gets the specification without transitions, which comes to the opening; job K gets it with the K-th handler alone. GNU parallel
runs them, over ssh where a file of hosts is given; without it xargs does, on this machine. A job is a few lines of shell: it keeps what
the program printed in files, and says on standard output which job it was and how the program ended. For hosts the files follow on
standard output, and parallel brings the texts and the program there and takes them away again. That the joined lines are those of one
call is tested, not proved: the theorem for each handler is that of its own call.
"""
import os
import shlex
import shutil
import signal
import subprocess
import time
from typing import NamedTuple

from launcher import output, program, timing
from launcher.say import UNABLE, Fault, say

MARK = b"hkv-job"
ANSWERS = {0: 0, 2: 1, 7: 2, 1: 3}  # the statuses of a report, each with its rank: the highest of all handlers is the report's
HEADER, END = b"hkv certificate 1\n", b"end\n"
PARTS = ("out", "err", "cert")
SECONDS_TO_END = 5
SECONDS_TO_CLEAR = 30
RETRIES = 3  # of a job whose host was lost

SCRIPT = """\
# job K: decides what K.py leaves of the specification, and says which job it was, how the program ended, and when it began and ended
cd "$(dirname "$0")" || exit
began=$(date +%s%N)
{program} verify kernel.ll "$1.py" {options} </dev/null >"$1.out" 2>"$1.err"
status=$?
ended=$(date +%s%N)
"""
HERE = """echo "{mark} $1 $status $began $ended"\n"""
THERE = """\
touch "$1.cert"
echo "{mark} $1 $status $began $ended $(wc -c <"$1.out") $(wc -c <"$1.err") $(wc -c <"$1.cert")"
cat "$1.out" "$1.err" "$1.cert"
rm -f "$1.out" "$1.err" "$1.cert"
"""


class Result(NamedTuple):
    """How the process of a job ended: the shell's status of it, and its seconds."""

    place: int
    status: int
    seconds: float


def run(asked, texts, wanted, folder):
    """Decides these handlers; the report's status."""
    hosts = asked.value("--hosts")
    command = scheduler(asked.value("--jobs"), hosts, os.path.basename(folder))
    prepare(asked, texts, wanted, folder, hosts is not None)
    report = Report(wanted, folder, asked.value("--cert"), "--time" in asked.given)
    child = subprocess.Popen(
        command, stdin=subprocess.PIPE, stdout=subprocess.PIPE, cwd=os.path.dirname(folder), start_new_session=True
    )
    try:
        child.stdin.write("".join(f"{place}\n" for place in range(len(wanted) + 1)).encode())
        child.stdin.close()
        for result in results(child.stdout, folder, hosts is not None):
            report.take(result)
        child.wait()
        return report.finish()
    except BaseException:
        end(child)
        if hosts is not None:
            clear(hosts, folder)
        raise


def prepare(asked, texts, wanted, folder, away):
    """Puts the specification of each job into the folder, and the job itself."""
    for place in range(len(wanted) + 1):
        with open(os.path.join(folder, f"{place}.py"), "wb") as file:
            file.write(texts.only(wanted[place - 1:place] if place else []))
    words = program.argv()
    words[0] = os.path.abspath(words[0]) if os.sep in words[0] else words[0]  # a job runs in the folder
    if away:
        if len(words) != 1:
            raise Fault("the program is not one file that can be brought to hosts")
        shutil.copy(words[0], os.path.join(folder, "hkv"))
        words = ["./hkv"]
    budget = asked.value("--conflicts")
    options = (f"--conflicts {budget} " if budget else "") + ('--cert "$1.cert"' if asked.value("--cert") is not None else "")
    text = SCRIPT.format(program=shlex.join(words), options=options) + (THERE if away else HERE).format(mark=MARK.decode())
    with open(os.path.join(folder, "job"), "w", encoding="utf-8") as file:
        file.write(text)


# ---- who runs the jobs


def scheduler(count, hosts, name):
    """The words that run the jobs whose places stand on standard input, from the folder above theirs."""
    parallel = gnu_parallel()
    if hosts is not None:
        if parallel is None:
            raise Fault("--hosts asks for GNU parallel (Debian: apt install parallel)")
        if not os.access(hosts, os.R_OK):
            raise Fault(f"--hosts {hosts}: the file cannot be read")
        bases = [word for file in ("kernel.ll", "job", "hkv") for word in ("--basefile", f"{name}/{file}")]
        more = ["--sshloginfile", os.path.abspath(hosts), *bases, "--transferfile", f"{name}/{{}}.py", "--cleanup", "--retries", str(RETRIES)]
    else:
        more = []
    if parallel is not None:
        return [parallel, "--plain", *(["--jobs", count] if count else []), *more, "sh", f"{name}/job", "{}"]
    return ["xargs", "-P", count, "-n", "1", "sh", f"{name}/job"]


def gnu_parallel():
    """The file of GNU parallel, or None; moreutils has another program of that name."""
    found = shutil.which("parallel")
    if found is None:
        return None
    with open(found, "rb") as file:
        return found if b"Free Software Foundation" in file.read(4096).replace(b"\n# ", b" ") else None


def results(stream, folder, away):
    """The results of jobs as they end; the files of those that come from elsewhere are put into the folder."""
    for line in stream:
        words = line.split()
        if words[:1] != [MARK]:
            continue
        place, status, began, ended, *sizes = map(int, words[1:])
        if away and not all(receive(stream, size, os.path.join(folder, f"{place}.{part}.got")) for part, size in zip(PARTS, sizes)):
            return
        if away:
            for part in PARTS:
                os.replace(os.path.join(folder, f"{place}.{part}.got"), os.path.join(folder, f"{place}.{part}"))
        yield Result(place, status, (ended - began) / 1e9)


def receive(stream, size, path):
    """Copies so many bytes into a file, and answers whether there were as many."""
    with open(path, "wb") as file:
        while size:
            piece = stream.read(min(size, 1 << 20))
            if not piece:
                return False
            size -= file.write(piece)
    return True


def end(child):
    """Ends the jobs: parallel ends its own when it is told to; what is left of the session then, and all of xargs, is ended here."""
    child.terminate()
    try:
        child.wait(SECONDS_TO_END)
    except subprocess.TimeoutExpired:
        pass
    late = time.monotonic() + SECONDS_TO_END
    while (left := session(child.pid)) and time.monotonic() < late:  # a process that is ended may just have begun another one
        for process in left:
            try:
                os.kill(process, signal.SIGKILL)
            except ProcessLookupError:
                pass
    child.wait()


def session(number):
    """The processes of a session that have not ended."""
    found = []
    for name in filter(str.isdigit, os.listdir("/proc")):
        try:
            with open(f"/proc/{name}/stat", "rb") as file:
                state, _, _, of, *_ = file.read().rpartition(b")")[2].split()
        except (OSError, ValueError):
            continue
        if int(of) == number and state not in (b"Z", b"X"):
            found.append(int(name))
    return found


def clear(hosts, folder):
    """Takes away what a call that was interrupted leaves on its hosts."""
    words = [gnu_parallel(), "--plain", "--nonall", "--sshloginfile", os.path.abspath(hosts), "rm", "-rf", os.path.basename(folder)]
    try:
        subprocess.run(words, cwd=os.path.dirname(folder), stdin=subprocess.DEVNULL, capture_output=True, timeout=SECONDS_TO_CLEAR)
    except subprocess.TimeoutExpired:
        say(f"the folder {os.path.basename(folder)} may be left in the home of a host")


# ---- the report


class Report:
    """The lines of the jobs, joined in the order of the handlers."""

    def __init__(self, wanted, folder, cert, timed):
        self.wanted, self.folder, self.cert, self.timed = wanted, folder, cert, timed
        self.waiting, self.next, self.opening = {}, 0, None
        self.statuses, self.lost, self.certs = [], False, []

    def take(self, result):
        """Takes in one result, and shows all that stand next."""
        if result.place >= self.next:
            self.waiting.setdefault(result.place, result)
        while self.next in self.waiting:
            self.show(self.waiting.pop(self.next))
            self.next += 1

    def finish(self):
        """Shows what is left, saves the certificate, and gives the status."""
        while self.next <= len(self.wanted):
            if self.next in self.waiting:
                self.show(self.waiting.pop(self.next))
            else:
                self.tell(self.next, "its job was ended before it answered")
            self.next += 1
        status = max(self.statuses, key=ANSWERS.get, default=0)
        if self.cert is not None:
            status = self.save(status)
        return UNABLE if self.lost else status

    def show(self, result):
        """Shows the lines of a job's handler, or tells why there are none."""
        out = self.read(result.place, "out")
        opening, newline, lines = out.partition(b"\n")
        if result.status not in ANSWERS or not out.startswith(b"init ") or bool(lines) != bool(result.place):
            return self.tell(result.place, why(result.status, out, self.read(result.place, "err")))
        if self.opening is None:
            self.opening = opening
            output.put(opening + newline)
        if self.opening != opening:
            raise Fault("two calls over the same texts differ in their first line")
        output.put(lines)
        self.statuses.append(result.status)
        if result.place:
            self.keep(result)

    def keep(self, result):
        """Keeps the certificate of a handler, and tells its time."""
        cert = os.path.join(self.folder, f"{result.place}.cert")
        if self.cert is not None:
            self.certs.append(cert)
        if self.timed:
            name = self.wanted[result.place - 1]
            timing.tell(name, result.seconds, timing.counts_in(cert).get(name) if self.cert is not None else None)

    def read(self, place, part):
        """What a job left in one of its files."""
        try:
            with open(os.path.join(self.folder, f"{place}.{part}"), "rb") as file:
                return file.read()
        except FileNotFoundError:
            return b""

    def tell(self, place, text):
        """Tells of a job that gave no answer."""
        self.lost = True
        say(f"{self.wanted[place - 1]}: {text}" if place else f"the opening: {text}")

    def save(self, status):
        """Joins the certificates of the handlers; the status of the whole, as the program gives it where a certificate cannot be had."""
        if self.lost:
            say("no certificate is saved: it would lack a handler")
            return status
        if not all(map(is_whole, self.certs)):
            return status if status == 1 else 7
        try:
            with open(self.cert, "wb") as file:
                join(self.certs, file)
        except OSError as error:
            say(f"{self.cert}: {error.strerror}")
            return output.STATUS
        return status


def why(status, out, err):
    """Why a job gave no answer."""
    if status > 128:
        number = status - 128
        name = signal.Signals(number).name if number in set(signal.Signals) else "no name"
        return f"its process was ended by signal {number} ({name})"
    if status == 7 and out == b"memory\n":
        return "memory was refused before its first line"
    said = err.decode(errors="replace").strip().splitlines()
    return f"its process ended with status {status}" + (f": {said[0]}" if said else "")


def is_whole(cert):
    """Whether a certificate of one handler was saved."""
    try:
        with open(cert, "rb") as file:
            front = file.read(len(HEADER))
            file.seek(-len(END), os.SEEK_END)
            return front == HEADER and file.read() == END
    except OSError:
        return False


def join(certs, file):
    """One certificate with the entries of all of these."""
    file.write(HEADER)
    for cert in certs:
        with open(cert, "rb") as entry:
            entry.seek(len(HEADER))
            left = os.path.getsize(cert) - len(HEADER) - len(END)
            while left:
                left -= file.write(entry.read(min(left, 1 << 20)))
    file.write(END)
