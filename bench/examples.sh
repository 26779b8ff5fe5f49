#!/bin/sh
# examples.sh [SECONDS]: measures each handler of examples/files.c at three sizes, and the one whose budget is spent: user
# time, elapsed time and peak of memory of each run. A run that takes more user time than SECONDS, 60 where none is
# given, is ended. It needs clang-16. HKV names the program; without it, it is the proved one, which `./hkv prove` builds.
set -eu
root=$(cd "$(dirname "$0")/.." && pwd)
seconds=${1:-60}
work=$(mktemp -d)
trap 'rm -rf "$work"' EXIT
if [ -z "${HKV:-}" ]; then
  HKV=$(HKV_PROVED=1 "$root/hkv" --program)
fi

run() { # run TITLE KERNEL SPEC
  python3 - "$HKV" "$seconds" "$@" <<'TIME'
import resource, subprocess, sys, time
program, seconds, title, kernel, spec = sys.argv[1:]
limit = (resource.RLIMIT_CPU, (int(seconds), int(seconds)))
began = time.monotonic()
ran = subprocess.run([program, 'verify', kernel, spec], stdout=subprocess.PIPE, text=True,
                     preexec_fn=lambda: resource.setrlimit(*limit))
elapsed = time.monotonic() - began
used = resource.getrusage(resource.RUSAGE_CHILDREN)
words = [line.split()[0] for line in ran.stdout.splitlines()[1:] if line[0] != ' '] or ['ended']
print(f'{title}: {" ".join(words)}; {used.ru_utime:.2f} s of user time, {elapsed:.1f} s elapsed, {used.ru_maxrss // 1024} MB',
      flush=True)
TIME
}

for size in '8 16' '16 32' '64 128'; do
  # shellcheck disable=SC2086 # two numbers
  "$root/examples/sized.sh" $size "$work/sized"
  for handler in create exit switch open close dup transfer set_limit get_limit; do
    python3 "$root/launcher/transitions.py" "$work/sized/files.py" "sys_$handler" >"$work/one.py"
    # shellcheck disable=SC2086
    run "$(printf '%s processes, %s files, sys_%s' $size "$handler")" "$work/sized/files.ll" "$work/one.py"
  done
done
run 'charge.c' "$root/examples/charge.ll" "$root/examples/charge.py"
