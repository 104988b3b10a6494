#!/usr/bin/env bash
# Writes the flits of 100,000 requests by chance to a file, for which it needs Verilator alone: dv/flits.sh FILE [PLUSARG..]
# PLACES is how many requests the home has at a time, 8 if not said. dv/chi_channels_tb.sv says which plusargs there are.
set -eu
cd "$(dirname "$0")/.."
[ $# -ge 1 ] || {
  echo "usage: dv/flits.sh FILE [PLUSARG..]" >&2
  exit 2
}
.ci/need verilator:verilator c++:g++ || exit 1
places=${PLACES:-8}
folder=out/dv_flits_$places
mkdir -p "$folder"
timeout -k 5 600 verilator --binary -Wall -Wno-DECLFILENAME -Wno-UNUSEDSIGNAL --timing --top-module chi_channels_tb --Mdir "$folder" \
  "-GPlaces=$places" dv/chi_stimulus.sv dv/chi_home_node.sv dv/chi_flits.sv dv/chi_channels_tb.sv > "$folder.log" 2>&1 || {
  tail -n 30 "$folder.log" >&2
  exit 1
}
"$folder/Vchi_channels_tb" "+flits=$1" +requests=100000 "${@:2}"
