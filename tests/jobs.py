"""Many handlers at once: what `verify --jobs` and `--hosts` print, against one call of the program over the same texts.

The oracle is the program itself in one process: its lines, status and certificate. HKV names it, or the launcher chooses.
"""
import os
import shutil
import signal
import subprocess
import sys
import tempfile
import time
import unittest

from launched import EXAMPLES, TOP, launched, plain, program
from workload import texts

COUNTS = (1, 2, 8)
TOOLS = "sh xargs date dirname cat wc rm touch sleep kill env".split()


def calls():
    """The calls of `verify` that are stored for the examples, as their words."""
    with open(os.path.join(TOP, "crates", "hkv_examples", "args"), encoding="utf-8") as file:
        return [line.split()[1:] for line in file if line.startswith("verify ")]


def is_running(pid):
    """Whether a process goes on; one that ended and is not yet waited for does not."""
    try:
        with open(f"/proc/{pid}/stat", encoding="utf-8", errors="replace") as file:
            return file.read().rpartition(")")[2].split()[0] not in "ZX"
    except FileNotFoundError:
        return False


class Folder(unittest.TestCase):
    """A test in a folder of its own."""

    def setUp(self):
        self.folder = tempfile.mkdtemp()
        self.addCleanup(shutil.rmtree, self.folder, True)

    def path(self, name):
        return os.path.join(self.folder, name)

    def write(self, name, text, mode=0o644):
        with open(self.path(name), "w", encoding="utf-8") as file:
            file.write(text)
        os.chmod(self.path(name), mode)
        return self.path(name)

    def workload(self, n):
        kernel, spec = texts(n)
        return self.write("kernel.ll", kernel), self.write("spec.py", spec)

    def without_parallel(self):
        """An environment whose PATH has no parallel."""
        tools = self.path("tools")
        os.mkdir(tools)
        for name in TOOLS:
            if shutil.which(name):
                os.symlink(shutil.which(name), os.path.join(tools, name))
        return {**os.environ, "PATH": tools}

    def stand_in(self, lines):
        """A program that runs these lines of shell and then is the program; $2 and $3 name the texts."""
        return self.write("stand_in", "#!/bin/sh\n" + lines + f'\nexec {program()[0]} "$@"\n', 0o755)

    def same(self, one, many):
        """The call over many processes gave what the one call did."""
        self.assertEqual(many.stdout.decode(), one.stdout.decode())
        self.assertEqual(many.returncode, one.returncode, many.stderr.decode())


class OfExamples(Folder):
    def test_all_examples_with_one_two_and_eight_jobs(self):
        for words in calls():
            one = plain(["verify", *words], cwd=EXAMPLES)
            for count in COUNTS:
                with self.subTest(words=words, jobs=count):
                    self.same(one, launched(["verify", *words, "--jobs", str(count)], cwd=EXAMPLES))


class OfWorkloads(Folder):
    def test_the_texts_are_those_of_bench(self):
        for n in (1, 3, 64):
            said = plain(["verify", *self.workload(n)])
            words = [line.split()[0] for line in said.stdout.decode().splitlines()[1:] if line[:1] != " "]
            counted = plain(["bench", str(n)]).stdout.decode()
            kinds = ("accept", "reject", "unknown", "memory")
            self.assertEqual(counted, f"handlers {len(words)}\n" + "".join(f"{kind} {words.count(kind)}\n" for kind in kinds))
            self.assertEqual(words.count("reject"), n // 4)

    def test_sixty_four_handlers_with_one_two_and_eight_jobs(self):
        files = self.workload(64)
        one = plain(["verify", *files, "--cert", self.path("one")])
        self.assertEqual(one.returncode, 1)
        for count in COUNTS:
            with self.subTest(jobs=count):
                many = launched(["verify", *files, "--jobs", str(count), "--cert", self.path("many")])
                self.same(one, many)
                self.same_file("one", "many")
                os.remove(self.path("many"))

    def same_file(self, one, many):
        with open(self.path(one), "rb") as first, open(self.path(many), "rb") as second:
            self.assertTrue(first.read() == second.read(), "the certificates differ")

    def test_without_parallel(self):
        files = self.workload(6)
        one = plain(["verify", *files, "--cert", self.path("one")])
        environment = self.without_parallel()
        for count in COUNTS:
            with self.subTest(jobs=count):
                self.same(one, launched(["verify", *files, "--jobs", str(count), "--cert", self.path("many")], env=environment))
                self.same_file("one", "many")

    def test_only_some_handlers(self):
        files = self.workload(8)
        many = launched(["verify", "--jobs", "2", *files, "--only", "s7", "--only", "s2"])
        self.assertEqual(many.stdout.decode().splitlines()[:3], ["init holds", "accept s2", "reject s7 undefined"])
        self.assertEqual(many.returncode, 1)

    def test_a_budget_goes_to_each_job(self):
        words = ["charge.ll", "charge.py", "--conflicts", "100"]
        many = launched(["verify", "--jobs", "2", *words], cwd=EXAMPLES)
        self.same(plain(["verify", *words], cwd=EXAMPLES), many)
        self.assertEqual(many.returncode, 2)

    def test_a_refused_text_is_refused_once(self):
        kernel, spec = self.workload(3)
        self.write("spec.py", texts(3)[1] + "def s1(state, pid, x):\n    return True, state\n")
        many = launched(["verify", "--jobs", "2", kernel, spec, "--cert", self.path("cert")])
        self.same(plain(["verify", kernel, spec]), many)
        self.assertEqual((many.stdout, many.returncode), (b"spec 20: S6\n", 3))
        self.assertFalse(os.path.exists(self.path("cert")))

    def test_a_false_opening_comes_once(self):
        kernel, spec = self.workload(3)
        self.write("spec.py", texts(3)[1] + "def inv_one(kernel):\n    return kernel.procs[0].f0 == 1\n")
        many = launched(["verify", "--jobs", "2", kernel, spec])
        self.same(plain(["verify", kernel, spec]), many)
        self.assertEqual(many.stdout.splitlines()[0], b"init fails invariant one")

    def test_a_certificate_that_cannot_be_saved(self):
        files = self.workload(3)
        words = ["verify", *files, "--cert", self.path("none/cert")]
        self.same(plain(words), launched([*words, "--jobs", "2"]))

    def test_an_output_that_takes_no_more(self):
        files = self.workload(3)
        for words in (["--jobs", "2"], ["--time"], ["--only", "s1", "--time"]):
            with self.subTest(words=words), open("/dev/full", "wb") as full:
                ran = subprocess.run(
                    [sys.executable, os.path.join(TOP, "tests", "launched.py"), "verify", *files, *words], stdout=full, stderr=subprocess.PIPE
                )
                self.assertEqual(ran.returncode, 6)


class OfLostJobs(Folder):
    def killed(self, environment):
        files = self.workload(6)
        stand_in = self.stand_in('if [ "$1" = verify ] && grep -q "^def s2(" "$3"; then kill -9 $$; fi')
        one = plain(["verify", *files]).stdout.decode()
        words = ["verify", *files, "--jobs", "2", "--cert", self.path("cert")]
        many = launched(words, env={**environment, "HKV": stand_in})
        self.assertEqual(many.stdout.decode(), one.replace("accept s2\n", ""))
        self.assertEqual(many.returncode, 70)
        self.assertIn("hkv: s2: its process was ended by signal 9 (SIGKILL)\n", many.stderr.decode())
        self.assertFalse(os.path.exists(self.path("cert")))

    def test_a_job_that_is_killed(self):
        self.killed(os.environ)

    def test_a_job_that_is_killed_without_parallel(self):
        environment = self.without_parallel()
        os.symlink(shutil.which("grep"), self.path("tools/grep"))
        self.killed(environment)

    def test_a_program_that_cannot_be_started(self):
        files = self.workload(2)
        stand_in = self.stand_in('if [ "$1" = verify ] && grep -q "^def s1(" "$3"; then exec /nowhere; fi')
        many = launched(["verify", *files, "--jobs", "2"], env={**os.environ, "HKV": stand_in})
        self.assertEqual((many.stdout, many.returncode), (b"init holds\naccept s0\n", 70))
        self.assertIn("hkv: s1: its process ended with status 127: ", many.stderr.decode())

    def interrupted(self, number, environment):
        """Lines stay, the call ends by the signal, and so do all of its processes."""
        files = self.workload(6)
        pids = self.path("pids")
        stand_in = self.stand_in(
            f'echo $$ >>{pids}\nif [ "$1" = verify ] && grep -q "^def s[2-5](" "$3"; then sleep 600 & echo $! >>{pids}; wait; fi'
        )
        child = subprocess.Popen(
            [sys.executable, os.path.join(TOP, "tests", "launched.py"), "verify", *files, "--jobs", "3"],
            stdout=subprocess.PIPE, stderr=subprocess.PIPE, env={**environment, "HKV": stand_in, "TMPDIR": self.folder},
        )
        shown = b"".join(child.stdout.readline() for _ in range(3))
        child.send_signal(number)
        rest, _ = child.communicate(timeout=60)
        self.assertEqual(shown + rest, b"init holds\naccept s0\naccept s1\n")
        self.assertEqual(child.returncode, -number)
        with open(pids, encoding="utf-8") as file:
            begun = file.read().split()
        late = time.monotonic() + 5
        while any(map(is_running, begun)) and time.monotonic() < late:
            time.sleep(0.1)
        self.assertGreaterEqual(len(begun), 6)
        self.assertEqual([pid for pid in begun if is_running(pid)], [])
        self.assertEqual([name for name in os.listdir(self.folder) if name.startswith("hkv-")], [])

    def test_an_interrupt(self):
        for number in (signal.SIGINT, signal.SIGTERM):
            with self.subTest(signal=number):
                self.interrupted(number, os.environ)
                os.remove(self.path("pids"))

    def test_an_interrupt_without_parallel(self):
        environment = self.without_parallel()
        os.symlink(shutil.which("grep"), self.path("tools/grep"))
        self.interrupted(signal.SIGINT, environment)


def why_no_hosts():
    """Why no hosts can be had on this machine; empty where they can."""
    if os.geteuid() != 0:
        return "network namespaces ask for root"
    missing = [name for name in ("ip", "rsync", "ssh", "/usr/sbin/sshd", "unshare", "parallel") if not shutil.which(name)]
    return f"there is no {', '.join(missing)} here" if missing else ""


@unittest.skipIf(why_no_hosts(), why_no_hosts())
class OfHosts(Folder):
    def over_hosts(self, words, more=""):
        """The call within the namespace of the hosts, whose list gets more lines."""
        line = f'printf "{more}" >>hosts; exec {sys.executable} {TOP}/tests/launched.py "$@"'
        return subprocess.run(
            [os.path.join(TOP, "tests", "hosts.sh"), self.folder, "sh", "-c", line, "sh", *words],
            stdin=subprocess.DEVNULL, capture_output=True, cwd=self.folder, env={**os.environ, "TMPDIR": self.folder}, timeout=900,
        )

    def test_two_hosts(self):
        files = self.workload(5)
        one = plain(["verify", *files, "--cert", self.path("one")])
        many = self.over_hosts(["verify", "--hosts", "hosts", *files, "--cert", self.path("many")])
        self.same(one, many)
        with open(self.path("one"), "rb") as first, open(self.path("many"), "rb") as second:
            self.assertTrue(first.read() == second.read(), "the certificates differ")

    def test_this_machine_among_them(self):
        files = self.workload(4)
        self.same(plain(["verify", *files]), self.over_hosts(["verify", "--hosts", "hosts", "--jobs", "1", *files], ":\\n"))

    def test_a_host_that_is_not_there(self):
        files = self.workload(4)
        gone = "2/ssh -o BatchMode=yes -o ConnectTimeout=1 root@10.77.1.9\\n"
        self.same(plain(["verify", *files]), self.over_hosts(["verify", "--hosts", "hosts", *files], gone))


if __name__ == "__main__":
    unittest.main()
