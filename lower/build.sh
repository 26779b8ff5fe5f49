#!/bin/sh
# Builds the plugin of opt from the files of this folder: build.sh VERSION OUT.so, VERSION being 15, 16 or 19. All files are one
# translation unit, so that LLVM's headers are read once.
set -eu
version=$1
out=$(realpath "$2")
cd "$(dirname "$0")"
config=llvm-config-$version
for file in *.cpp; do echo "#include \"$file\""; done |
  # shellcheck disable=SC2046 # words of llvm-config
  "${CXX:-c++}" -O0 -fno-rtti -fPIC -shared -w -I. $("$config" --cxxflags) -std=c++17 -x c++ - -o "$out"
