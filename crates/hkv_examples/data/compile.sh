#!/bin/sh
# Makes the texts of this folder, of profile/ and of bugs/ anew, and compares: what clang writes for each C file, and for
# files.c with each patch; and the specification of the patched handler alone. Those of bugs/ have debug metadata. A text that differs is shown and makes the status
# 1. With the word --write it replaces the texts. CLANG names the compiler; without one nothing is compared.
set -eu
cd "$(dirname "$0")"
clang=${CLANG:-clang-16}
if ! command -v "$clang" >/dev/null; then
  echo "there is no $clang here: nothing is compared"
  exit 0
fi
how=${1:-}
work=$(mktemp -d)
trap 'rm -rf "$work"' EXIT
status=0

keep() { # keep FILE MAKER: the text that was made, against the one that is kept
  if [ "$how" = --write ]; then
    cp "$work/made" "$1"
  elif diff -u "$1" "$work/made"; then
    echo "$1 is what $2 writes"
  else
    status=1
  fi
}

only() { # only HANDLER: the specification with this handler alone
  awk -v handler="$1" 'NR == 1 { on = 1 }
    /^def / { name = $2; sub(/[(].*/, "", name); on = name == handler || name == "equiv" || name ~ /^(inv|prop)_/ }
    on'
}

compile() { # compile NAME FILE [FLAG ..]: what clang writes for the file, against NAME.ll
  name=$1 file=$2
  shift 2
  (cd "$work" && "$clang" -Wall -Wextra -O1 "$@" -ffreestanding -S -emit-llvm -o made "$file")
  keep "$name.ll" "$clang"
}

for file in *.c profile/*.c; do
  cp "$file" "$work"
  compile "${file%.c}" "$(basename "$file")"
done
for bug in missing_bound:sys_close off_by_one:sys_dup kept_reference:sys_close early_write:sys_open; do
  name=${bug%:*}
  cp files.c "$work/files.c"
  (cd "$work" && patch -s files.c) <"$name.patch"
  compile "$name" files.c
  only "${bug#*:}" <files.py >"$work/made"
  keep "$name.py" "the text of files.py for ${bug#*:}"
done
debug='-g -fdebug-compilation-dir=.'
for name in mbox pages; do
  cp "bugs/$name.c" "$work/$name.c"
  # shellcheck disable=SC2086 # two flags
  compile "bugs/$name" "$name.c" $debug
done
for bug in mbox_wrap:mbox mbox_full:mbox pages_wx:pages; do
  name=${bug%:*} base=${bug#*:}
  cp "bugs/$base.c" "bugs/$base.py" "$work"
  (cd "$work" && patch -s) <"bugs/$name.patch"
  for kind in c py; do
    cp "$work/$base.$kind" "$work/made"
    if ! cmp -s "$work/made" "bugs/$base.$kind"; then keep "bugs/$name.$kind" patch; fi
  done
  cp "$work/$base.c" "$work/$name.c"
  # shellcheck disable=SC2086 # two flags
  compile "bugs/$name" "$name.c" $debug
done
exit "$status"
