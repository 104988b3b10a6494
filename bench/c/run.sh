#!/usr/bin/env bash
# A million requests by chance agree with plain C, and the time of a call beside it; then the same by DPI, in Verilator.
# The libraries are there (make lib). Both sides are built with -O2.
set -eu
cd "$(dirname "$0")/../.."
.ci/need cc:gcc || exit 1
mkdir -p out/bench
cc -std=gnu11 -O2 -Wall -Wextra -Werror -Iinclude -c -o out/bench/plain.o bench/c/plain.c
cc -std=gnu11 -O2 -Wall -Wextra -Werror -Iinclude -o out/bench/measure bench/c/measure.c out/bench/plain.o out/libchi_c.a
timeout -k 5 1800 out/bench/measure
echo
if ! command -v verilator > /dev/null; then
  echo "no verilator, so no times by DPI: apt-get install verilator"
  exit 0
fi
timeout -k 5 900 verilator --binary -O3 -Wall -Wno-UNUSEDSIGNAL --timing --top-module dpi --Mdir out/bench/dpi -CFLAGS -O2 bench/c/dpi.sv \
  "$PWD/bench/c/dpi.c" "$PWD/out/bench/plain.o" "$PWD/out/libchi_c.a" > out/bench/dpi.log 2>&1 || {
  tail -n 30 out/bench/dpi.log >&2
  exit 1
}
timeout -k 5 1800 out/bench/dpi/Vdpi | grep '^by DPI'
