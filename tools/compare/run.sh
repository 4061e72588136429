#!/usr/bin/env bash
# Measures `bench` next to C++: tools/compare/run.sh --help
set -euo pipefail
here=$(cd "$(dirname "$0")" && pwd)
top=$(cd "$here/../.." && pwd)
if [ "${1:-}" = --help ] || [ "${1:-}" = -h ]; then
  cat <<'HELP'
usage: tools/compare/run.sh [--face | --face-into | --trace] [BENCH]

Measures the program `bench` next to the same kernels in C++ (search.cpp): builds both, runs them in turn for five rounds, and prints one
table, in nanoseconds per cell, or per robot and tick. A row has the least, the median and the greatest of the rounds, ours and the peer's,
and the ratio of the least and of the medians. BENCH is the path of the built program; without it `rt run` proves and builds it. Needs g++.
`tools/install --quick bench` builds bin/bench without proofs: slower, since it checks at run time. KERNELS and ROUNDS may be set in the environment.

    --face   the tick through the library for C (face.cpp, "ours") next to `bench tick` ("peer"), the mean over 200 ticks.
             Needs build_c/libnashirudder.a, which tools/build_c makes (with --quick without proofs)
    --face-into   the same of ticks that tell the cells, the arrivals and the farewells
    --trace  the memory of a tick, and the text of a chapter: the lines of `bench trace`, with a process of its own for each number of
             robots, so that no fleet takes the memory that another gave back
HELP
  exit 0
fi
face=
case "${1:-}" in
  --face) face=plain; shift ;;
  --face-into) face=into; shift ;;
  --trace) face=trace; shift ;;
esac
bench=${1:-}
if [ -z "$bench" ]; then
  (cd "$top/crates/bench" && rt run >&2)
  bench=$top/crates/bench/out/bench
fi
if [ "$face" = trace ]; then
  for robots in 16 128 512; do
    "$bench" trace "$robots"
  done
  exit 0
fi
out=$(mktemp -d)
trap 'rm -r "$out"' EXIT
rounds=${ROUNDS:-5}
flags="-O3 -march=native -pthread"
if [ -n "$face" ]; then
  g++ $flags -std=c++20 -I "$top/bindings/c" -I "$top/bindings/cpp" -o "$out/face" "$here/face.cpp" "$top/build_c/libnashirudder.a"
  measured=mean_ns
  what="peer: bench tick"
  for _ in $(seq "$rounds"); do
    "$out/face" "$face" | sed 's/^/ours /' >> "$out/lines"
    "$bench" tick | sed 's/^/peer /' >> "$out/lines"
  done
else
  g++ $flags -std=c++17 -o "$out/search" "$here/search.cpp"
  measured=least_ns
  what="peer: tools/compare/search.cpp, $(g++ -dumpfullversion) $flags"
  for _ in $(seq "$rounds"); do
    for kernel in ${KERNELS:-field fields bridge check step lifelong open}; do
      "$bench" "$kernel" | sed 's/^/ours /' >> "$out/lines"
      "$out/search" "$kernel" | sed 's/^/peer /' >> "$out/lines"
    done
  done
fi
echo "# $what; $rounds rounds: least, median and greatest; load $(cut -d' ' -f1 /proc/loadavg)"
echo "kernel map fleet ours peer ratio ratio-of-medians"
awk -v measured="$measured" '
  function note(who, row, number) {
    if (!(row in seen)) { seen[row] = 1; rows[++count] = row }
    values[who " " row] = values[who " " row] " " number + 0
  }
  # least, median and greatest of a list of numbers, into spread
  function spread_of(list,   n, i, j, kept) {
    n = split(list, spread, " ")
    for (i = 2; i <= n; i++) {
      kept = spread[i]
      for (j = i - 1; j > 0 && spread[j] + 0 > kept + 0; j--) spread[j + 1] = spread[j]
      spread[j + 1] = kept
    }
    least = spread[1]; median = spread[int((n + 1) / 2)]; greatest = spread[n]
    return n
  }
  {
    split("", value)
    for (i = 3; i <= NF; i++) { split($i, pair, "="); value[pair[1]] = pair[2] }
    note($1, $2 " " value["map"] " " value["fleet"], value[measured])
  }
  END {
    form = "%.2f/%.2f/%.2f"
    for (i = 1; i <= count; i++) {
      if (!spread_of(values["ours " rows[i]])) continue
      ours = least; middle = median; text = sprintf(form, least, median, greatest)
      if (!spread_of(values["peer " rows[i]]) || median == 0 || least == 0) continue
      printf "%s %s %s %.2f %.2f\n", rows[i], text, sprintf(form, least, median, greatest), ours / least, middle / median
    }
  }' "$out/lines"
