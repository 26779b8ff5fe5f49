#!/bin/sh
# sized.sh PROCESSES FILES FOLDER: puts files.ll and files.py for so many processes and files into the folder.
# CLANG names the compiler.
set -eu
here=$(cd "$(dirname "$0")" && pwd)
mkdir -p "$3"
cp "$here/files.c" "$3/files.c"
(cd "$3" && "${CLANG:-clang-16}" -O1 -ffreestanding -DNPROC="$1" -DNFILE="$2" -S -emit-llvm -o files.ll files.c)
sed -e "s/^PidT = Index(32, 8)/PidT = Index(32, $1)/" -e "s/^NPROC = 8/NPROC = $1/" \
  -e "s/^FileT = Index(32, 16)/FileT = Index(32, $2)/" -e "s/^NFILE = 16/NFILE = $2/" "$here/files.py" >"$3/files.py"
