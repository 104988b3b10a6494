#!/usr/bin/env bash
# Makes the archive and the shared library of the calls for C: out/libchi_c.a and out/libchi.so, which has the shim of
# the DPI package too.
set -eu
cd "$(dirname "$0")/.."
.ci/need "${CC:-cc}:gcc" || exit 1
mkdir -p out
(cd crates/chi_c && rt lib) > out/lib.log 2>&1 || {
  tail -n 20 out/lib.log >&2
  exit 1
}
cp crates/chi_c/out/libchi_c.a out
"${CC:-cc}" -O2 -Wall -Wextra -Werror -shared -fPIC -Iinclude -o out/libchi.so dv/chi_dv.c \
  -Wl,--whole-archive out/libchi_c.a -Wl,--no-whole-archive
