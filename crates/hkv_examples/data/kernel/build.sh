#!/bin/sh
# What comes in are the texts of this folder; what goes out is in out/ (and, of compile, kernel.ll).
#
#   build.sh compile              makes kernel.ll, the text that is verified and linked, from kernel.c
#   build.sh text FILE            makes the text alone, as for the sizes of SIZES="-DNFRAME=16 .."
#   build.sh verify [HANDLER ..]  has hkv decide all handlers, or each of these by itself, from kernel.ll
#   build.sh clean                has hkv decide the property of clean.py for frames of 8 words
#   build.sh image                makes the object from kernel.ll, and links it with boot code and user programs
#   build.sh same                 shows that the image is made from kernel.ll, and kernel.ll from kernel.c
#   build.sh boot                 runs the image in QEMU without a screen, and compares its console with expected.txt
#   build.sh bugs [BUG ..]        has hkv decide the handler of each bug, and compares with the table of README.md
#   build.sh shown [BUG ..]       boots the kernel with each bug that the table says is shown, and compares the lines
#
# HKV names the program of hkv, CLANG, LLC, LLD and QEMU the others. SIZES are options for the compiler.
set -eu
cd "$(dirname "$0")"
hkv=${HKV:-hkv} clang=${CLANG:-clang-16} llc=${LLC:-llc-16} lld=${LLD:-ld.lld-16} qemu=${QEMU:-qemu-system-riscv64}
target='--target=riscv64-unknown-elf -march=rv64im -mabi=lp64 -mcmodel=medany -msmall-data-limit=0 -ffreestanding -Wall -Wextra'
user='-Oz -fno-builtin -fno-jump-tables -Wno-main -Wno-deprecated-non-prototype'
mkdir -p out

compile() { # compile FROM TO: the text that clang writes
  # shellcheck disable=SC2086 # several words, here and below
  "$clang" $target ${SIZES:-} -O1 -g -fdebug-prefix-map="$PWD=." -I "$PWD" -S -emit-llvm -o "$2" "$1"
}

link() { # link TEXT FOLDER: the object of the kernel's text, and the image with it
  mkdir -p "$2"
  "$llc" -O1 -mattr=+m -code-model=medium -filetype=obj -o "$2/kernel.o" "$1"
  # shellcheck disable=SC2086
  {
    "$clang" $target -c -o "$2/start.o" start.S
    "$clang" $target ${SIZES:-} -O1 -fno-jump-tables -c -o "$2/boot.o" boot.c
    "$clang" $target ${SIZES:-} $user -c -o "$2/main.o" user/programs.c
    "$clang" $target -c -o "$2/calls.o" user/calls.S
    "$clang" ${SIZES:-} -E -P -x c -o "$2/kernel.ld" kernel.ld
  }
  "$lld" -r -o "$2/programs.o" "$2/calls.o" "$2/main.o"
  (cd "$2" && "$lld" -T kernel.ld --no-relax --orphan-handling=error -Map kernel.map -o kernel.elf \
    start.o boot.o kernel.o programs.o)
}

run() { # run FOLDER: what the image writes on its console, within a minute
  timeout 60 "$qemu" -machine virt -m 16M -smp 1 -bios none -display none -serial stdio -monitor none \
    -kernel "$1/kernel.elf" </dev/null >"$1/console.txt" || echo "status $?" >>"$1/console.txt"
}

rows() { # rows [BUG ..]: of the table of README.md `NAME HANDLER OBLIGATION | what the console says with it`
  # shellcheck disable=SC2016 # the quotes of a table in Markdown
  sed -n 's/^| `\([a-z_]*\)` | [^|]* | `\([a-z_]*\)` | `\([a-z_ ]*\)` | *\(.*\)|$/\1 \2 \3|\4/p' README.md | sed 's/ *$//' |
    if [ $# -gt 0 ]; then grep -E "^($(echo "$*" | tr ' ' '|')) "; else cat; fi
}

with_bug() { # with_bug NAME: the text of the kernel with that bug
  mkdir -p "out/$1"
  cp kernel.c "out/$1/kernel.c"
  patch -s "out/$1/kernel.c" "bugs/$1.patch"
  compile "out/$1/kernel.c" "out/$1/kernel.ll"
}

command=${1:-}
[ $# -eq 0 ] || shift
case $command in
compile)
  compile kernel.c out/kernel.ll
  if cmp -s out/kernel.ll kernel.ll; then
    echo 'kernel.ll is what clang writes for kernel.c'
  else
    cp out/kernel.ll kernel.ll
    echo 'kernel.ll is new'
  fi
  ;;
text)
  compile kernel.c "$1"
  ;;
verify)
  if [ $# -eq 0 ]; then
    "$hkv" verify kernel.ll kernel.py
  fi
  for handler; do
    python3 ../only.py kernel.py "$handler" >out/only.py
    "$hkv" verify kernel.ll out/only.py | sed '/^init holds$/d'
  done
  ;;
clean)
  SIZES=-DNWORD=8
  compile kernel.c out/clean.ll
  for handler in sys_alloc_frame sys_clear_word sys_copy_word; do # the handlers that write what it speaks of
    python3 sized.py NWORD=8 | cat - clean.py >out/clean.py
    python3 part.py out/clean.py prop_running prop_cleared prop_clean >out/part.py
    python3 ../only.py out/part.py "$handler" >out/only.py
    "$hkv" verify out/clean.ll out/only.py
  done
  ;;
image)
  link kernel.ll out
  sha256sum kernel.ll out/kernel.o out/kernel.elf
  ;;
same)
  compile kernel.c out/kernel.ll
  cmp out/kernel.ll kernel.ll && echo 'kernel.ll is what clang writes for kernel.c'
  link kernel.ll out/again
  [ -e out/kernel.elf ] || link kernel.ll out
  cmp out/kernel.elf out/again/kernel.elf && echo 'the image is, byte for byte, what is made from kernel.ll'
  # The link map has under each part of an object the names that it defines.
  # shellcheck disable=SC2013 # names of functions
  for name in $(sed -n 's/^    CALL(\([a-z_]*\)).*/\1/p' calls.h); do
    awk -v name="$name" '$5 ~ /\.o:\(/ { object = $5 } $5 == name && object == "kernel.o:(.text)" { found = 1 }
      END { if (!found) { print name " is not of kernel.o"; exit 1 } }' out/again/kernel.map
  done
  echo 'each handler in it is that of kernel.o, which llc makes from kernel.ll'
  ;;
boot)
  link kernel.ll out
  run out
  grep -v '^entered' out/console.txt | diff -u expected.txt - && echo 'the console is as expected'
  if grep '^entered .* 0$' out/console.txt; then
    echo 'these were not entered'
    exit 1
  fi
  grep -c '^entered' out/console.txt | sed 's/$/ handlers were entered/'
  ;;
bugs)
  rows "$@" >out/rows
  status=0
  while IFS='|' read -r row _; do
    # shellcheck disable=SC2086
    set -- $row
    with_bug "$1"
    python3 ../only.py kernel.py "$2" >"out/$1/only.py"
    "$hkv" verify "out/$1/kernel.ll" "out/$1/only.py" >"out/$1/report" || true
    if grep -qx "reject ${row#* }" "out/$1/report"; then
      echo "$1: reject ${row#* }"
    else
      echo "$1: not reject ${row#* }, but $(sed -n 2p "out/$1/report")"
      status=1
    fi
  done <out/rows
  exit $status
  ;;
shown)
  rows "$@" | grep '|`' >out/rows
  status=0
  while IFS='|' read -r row line; do
    name=${row%% *}
    line=$(echo "$line" | tr -d '`')
    with_bug "$name"
    link "out/$name/kernel.ll" "out/$name"
    run "out/$name"
    if grep -qxF "$line" "out/$name/console.txt" && ! grep -qxF "$line" expected.txt; then
      echo "$name: the console says: $line"
    else
      echo "$name: the console does not say: $line"
      status=1
    fi
  done <out/rows
  exit $status
  ;;
*)
  sed -n '2,/^set/s/^# \{0,1\}//p' build.sh
  exit 4
  ;;
esac
