#!/usr/bin/env bash
# Runs the benches in Verilator. The one with the reference has to agree, and to find each of three planted mistakes. Of the one with
# a home node by chance chicheck watch --flits explains the flits while they come, or stops, and with it the simulation, where a mistake
# is planted; and 100,000 requests of it cover all traffic that they can. Flits with an x are those of a bench in Icarus Verilog. Of
# the waves of both benches chi-waves tells the lines that the monitor of flits wrote. A bench in VHDL, in GHDL, has the lines that
# were worked by hand.
# dv/run.sh [SEEDS [REQUESTS]]
set -eu
cd "$(dirname "$0")/.."
seeds=${1:-16} requests=${2:-2000}
.ci/need verilator:verilator c++:g++ python3:python3 || exit 1
version=$(verilator --version | sed 's/^Verilator \([0-9]*\).*/\1/')
if [ "$version" -lt 5 ]; then
  echo "dv: Verilator $version is too old for the benches, which want 5 or later" >&2
  exit 1
fi
# A simulation that takes longer than this ends with status 124.
limited="timeout -k 5 120"
fail() {
  printf 'dv: %s\n' "$*" >&2
  exit 1
}
build() { # folder, top module, files and flags
  mkdir -p "$1"
  timeout -k 5 600 verilator --binary -Wall -Wno-DECLFILENAME -Wno-UNUSEDSIGNAL --timing --top-module "$2" --Mdir "$1" "${@:3}" \
    > "$1.log" 2>&1 || {
    tail -n 30 "$1.log" >&2
    exit 1
  }
}
build out/dv tb -CFLAGS "-I$PWD/include" dv/chi_pkg.sv dv/chi_stimulus.sv dv/home_node.sv dv/tb.sv "$PWD/dv/chi_dv.c" "$PWD/out/libchi_c.a"
$limited out/dv/Vtb +rows=c/rows.txt
for bug in 1 2 3; do
  if found=$($limited out/dv/Vtb "+bug=$bug" 2>&1); then
    fail "planted mistake $bug was not found"
  fi
  echo "planted mistake $bug:"
  printf '%s\n' "$found" | grep '^tb:'
done

checker=crates/chi_check/out/chi_check
.ci/built chicheck
pipe=$(mktemp -u)
mkfifo "$pipe"
trap 'rm -f "$pipe"' EXIT
watch() { # the build, and plusargs: sets the statuses of both programs and the first line of the answer
  simulated=0 watched=0
  timeout -k 5 120 $checker watch $asked --require-end --require-quiet < "$pipe" > out/dv_answer 2>&1 &
  # Where chicheck has stopped the monitor sees that it cannot write, and ends the simulation by $fatal.
  { (trap '' PIPE; $limited "out/dv_channels_$1/Vchi_channels_tb" "+flits=$pipe" "+requests=$requests" "${@:2}") > out/dv_said 2>&1; } \
    2> /dev/null || simulated=$?
  [ $simulated = 0 ] || grep -q "chi_flits: time [0-9]*: no line can be written (Broken pipe)" out/dv_said \
    || fail "$*: the simulation ends with $simulated: $(cat out/dv_said)"
  wait $! || watched=$?
  answer=$(head -n 1 out/dv_answer)
}
mistakes=("" "a lost update" "a stale read" "byte enables ignored" "a compare that writes on a mismatch" "the wrong half of the window"
  "no sign in SMAX" "a retried request that took effect" "a response for another TxnID")
for kind in 128 256 512 point; do
  flags="-GDataWidth=$kind" asked=--flits # what the flits are watched with
  [ $kind != point ] || flags="-GSeesPoint=1'b1" asked="--flits --points"
  build out/dv_channels_$kind chi_channels_tb $flags dv/chi_stimulus.sv dv/chi_home_node.sv dv/chi_flits.sv dv/chi_channels_tb.sv
  for seed in $(seq "$seeds"); do
    for more in "" +errors; do
      watch $kind "+seed=$seed" $more
      [ "$simulated $watched" = "0 0" ] \
        || fail "$kind, seed $seed $more: the home node ends with $simulated, and chicheck with $watched: $(cat out/dv_answer out/dv_said)"
    done
  done
  echo "$kind: $seeds seeds are explained, also with errors; of the last:$(grep -m 1 '^  operations that ended' out/dv_answer)"
  for mistake in 1 2 3 4 5 6 7 8; do
    found=0 stopped=0
    for seed in $(seq "$seeds"); do
      watch $kind "+seed=$seed" "+mistake=$mistake"
      [ $watched = 0 ] || [ $watched = 1 ] || fail "$kind, seed $seed, mistake $mistake: chicheck ends with $watched: $(cat out/dv_answer)"
      [[ ! $answer =~ ^(not explained|chicheck: not legal at the port): ]] || found=$((found + 1))
      [ $simulated = 0 ] || stopped=$((stopped + 1))
    done
    [ $((16 * found)) -ge $((15 * seeds)) ] || fail "$kind: ${mistakes[mistake]} is found with $found of $seeds seeds"
    [ $stopped -gt 0 ] || fail "$kind: ${mistakes[mistake]} stops no simulation"
    echo "$kind: ${mistakes[mistake]} is found with $found of $seeds seeds, and stops the simulation with $stopped; with the last: $answer"
  done
  watch $kind +seed=1 +mistake=9
  hangs=$(grep -m 1 '^    line [0-9]* since [0-9]*: .* waits for its reply$' out/dv_answer) \
    && [ "$watched $answer $(grep '^required: ' out/dv_answer | cut -d , -f 1)" = "1 explained required: no request is outstanding" ] \
    || fail "$kind: a request without an answer: $(cat out/dv_answer out/dv_said)"
  echo "$kind: where a request is not answered all is $answer, and $(tail -n 1 out/dv_answer); the first that is outstanding:$hangs"
done

same_by_waves() { # the folder of a run with flits.jsonl, and waves.vcd of the same run
  PYTHONPATH=python $limited python3 -B -m chi_waves dv/waves.json "$1/waves.vcd" > "$1/by_waves.jsonl" \
    || fail "chi-waves ends with a fault for $1/waves.vcd"
  cmp "$1/flits.jsonl" "$1/by_waves.jsonl" || fail "the waves of $1 have other flits than the monitor wrote"
}
build out/dv_waves chi_channels_tb --trace -GDataWidth=256 \
  dv/chi_stimulus.sv dv/chi_home_node.sv dv/chi_flits.sv dv/chi_channels_tb.sv
for more in "" +errors; do
  $limited out/dv_waves/Vchi_channels_tb +flits=out/dv_waves/flits.jsonl +waves=out/dv_waves/waves.vcd \
    +requests=2000 $more > out/dv_waves/said.log 2>&1 || fail "the bench with waves ends with a fault: $(cat out/dv_waves/said.log)"
  same_by_waves out/dv_waves
done
echo "256, by waves: with errors and without the same flits, the last time $(wc -l < out/dv_waves/by_waves.jsonl) lines"

# Flits with an x, which Verilator does not have. Their lines are counted from 1, that of the granule's word.
if command -v iverilog > /dev/null; then
  mkdir -p out/dv_x
  timeout -k 5 60 iverilog -g2012 -s x_bench -o out/dv_x/bench dv/chi_flits.sv dv/x_bench.sv > out/dv_x/built.log 2>&1 \
    || fail "Icarus Verilog does not take the bench with an x: $(cat out/dv_x/built.log)"
  explained="explained
  operations that ended: 2
  requests outstanding: 0
  granules: 1
  granules not judged: 0"
  cases=("0 $explained" "3 chicheck: line 4 has an x in an enabled lane" "3 chicheck: line 7 has an x in a lane of its operand"
    "3 chicheck: line 7 has a valid that is not known" "3 chicheck: line 6 has a valid that is not known"
    "3 chicheck: line 4 has an x in its byte enables")
  for case in "${!cases[@]}"; do
    $limited vvp -n out/dv_x/bench "+case=$case" +flits=out/dv_x/flits.jsonl +waves=out/dv_x/waves.vcd > out/dv_x/said.log 2>&1 \
      || fail "case $case with an x ends with a fault: $(cat out/dv_x/said.log)"
    status=0
    said=$($checker watch --flits --require-end --require-quiet < out/dv_x/flits.jsonl 2>&1) || status=$?
    [ "$status $said" = "${cases[case]}" ] || fail "case $case with an x: chicheck ends with $status $said, and not with ${cases[case]}"
    same_by_waves out/dv_x
  done
  echo "${#cases[@]} cases with an x, in Icarus Verilog: as they were worked by hand, and the same by waves"
else
  echo "flits with an x are left out: no iverilog on the path (apt-get install iverilog)"
fi

# Flits in VHDL, and their waves. Each case but 0 changes one of the lines that were worked by hand; of chicheck's answer the status and the first line count.
if command -v ghdl > /dev/null; then
  mkdir -p out/dv_vhdl
  in_ghdl() { (cd out/dv_vhdl && timeout -k 5 60 ghdl "$1" --std=08 "${@:2}" > said.log 2>&1); }
  in_ghdl -a ../../dv/chi_flits.vhd ../../dv/vhdl_bench.vhd || fail "GHDL does not take the bench in VHDL: $(cat out/dv_vhdl/said.log)"
  changes=("" '8s/6"}/5"}/' '5s/X0/XX/' '7s/"REQ"/"REQ","valid":"x"/' '8s/"RDAT"/"RDAT","valid":"x"/')
  answers=("0 explained" "1 not explained: granule 0000000000001000" "3 chicheck: line 5 has an x in an enabled lane"
    "3 chicheck: line 7 has a valid that is not known" "3 chicheck: line 8 has a valid that is not known")
  for case in "${!answers[@]}"; do
    in_ghdl --elab-run vhdl_bench "-gNumber=$case" -gPath=flits.jsonl --vcd=waves.vcd \
      || fail "case $case in VHDL ends with a fault: $(cat out/dv_vhdl/said.log)"
    sed "${changes[case]}" dv/vhdl_lines.jsonl | diff - out/dv_vhdl/flits.jsonl || fail "case $case in VHDL has other lines"
    # VHDL prints digits in upper case.
    PYTHONPATH=python $limited python3 -B -m chi_waves dv/waves.json out/dv_vhdl/waves.vcd | diff -i out/dv_vhdl/flits.jsonl - \
      || fail "the waves of case $case in VHDL have other flits than the monitor wrote"
    status=0
    said=$($checker watch --flits --require-end --require-quiet < out/dv_vhdl/flits.jsonl 2>&1) || status=$?
    [ "$status ${said%%$'\n'*}" = "${answers[case]}" ] \
      || fail "case $case in VHDL: chicheck ends with $status $said, and not with ${answers[case]}"
  done
  ! in_ghdl --elab-run vhdl_bench -gPath=/dev/full || fail "a full disk does not end the bench in VHDL with a fault"
  echo "${#answers[@]} cases in VHDL, in GHDL: as they were worked by hand, and the same by waves"
else
  echo "flits in VHDL are left out: no ghdl on the path (apt-get install ghdl)"
fi

# What the traffic of the bench covers: every bin but the one that a home of eight places cannot have.
dv/flits.sh out/dv_flits.jsonl > out/dv_said 2>&1 || fail "the bench that writes flits ends with a fault: $(cat out/dv_said)"
$checker cover --flits out/dv_flits.jsonl > out/dv_cover || fail "chicheck cover ends with a fault"
missing=$(grep -E '^missing: (open|an overlap|.* while )' out/dv_cover | grep -vx 'missing: open more than 8' || true)
[ -z "$missing" ] || fail "of the traffic of 100,000 requests: $missing"
echo "100,000 requests: $(grep -E '^(open at once|overlaps|requesters|(line )?sequences|covered): ' out/dv_cover | paste -sd ';')"
echo "dv: PASS"
