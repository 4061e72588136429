#!/usr/bin/env bash
# Refuses each allocation of `errands` in turn: tools/refused/run.sh --help
set -euo pipefail
here=$(cd "$(dirname "$0")" && pwd)
bin=$here/../../bin
if [ $# -eq 2 ] && [ "$1" = --bin ]; then
  bin=$2
elif [ $# -ne 0 ]; then
  cat <<'HELP'
usage: tools/refused/run.sh [--bin DIR]

Runs seven jobs of the program `errands` again and again. In run N the Nth allocation gives no memory: once alone, and once with all
that come after it. Each run must end

- with status 7, `errands: memory` on the error writer, and a prefix of what the job otherwise writes, or
- as the job otherwise does, where the refusal was made up for. A serve's trace depends on its schedule: it must be found legal.

Ends with status 1 at the first run that does not. Prints for each job how many allocations were refused, how many of these runs ended
out of memory, and how many refusals were made up for. The program is DIR/errands, or bin/errands
(`tools/install --quick` makes it). Needs cc and a C library whose allocations can be replaced (LD_PRELOAD). A minute or two.
HELP
  [ "$1" = --help ] && exit 0 || exit 2
fi
errands=$(realpath -e "$bin/errands") ||
  { echo "tools/refused/run.sh: tools/install --quick makes bin/errands" >&2; exit 2; }
room=$(mktemp -d)
trap 'rm -r "$room"' EXIT
cc -O2 -shared -fPIC -o "$room/refuse.so" "$here/refuse.c"
cd "$room"
cp "$here/../../crates/errands/stdin" bundle
sed '/^script$/,$d' bundle > map
sed '1,/^script$/d' bundle > script
printf 'type octile\nheight 1\nwidth 1\nmap\n.\n' > cell
printf 'robots 0\npost 0 go 0 0\ntake 0\ntick\n' > arrival
printf 'type octile\nheight 1\nwidth 2\nmap\n..\n' > pair
printf 'robots 0\nlane 1\nturns 1\npost 0 go 0 1\npost 0 go 0 1\ncollect 0\n' > served
"$errands" run --trace cell arrival > trace

run() { # refusals as NAME=VALUE, then --, then the program's words: its status; what it wrote lies in out and err
  local refusals=() status=0
  while [ "$1" != -- ]; do refusals+=("$1"); shift; done
  shift
  rm -f refused
  timeout 60 env LD_PRELOAD="$room/refuse.so" REFUSE_NOTE="$room/refused" "${refusals[@]}" "$errands" "$@" \
    < bundle > out 2> err || status=$?
  echo "$status"
}

is_good() { # status, job: whether a run ended as one without refusals does
  if [ "$2" != serve ]; then
    [ "$1" = 0 ] && cmp -s out good && test ! -s err
    return
  fi
  case $1 in
    0) test ! -s err ;;
    8) test "$(cat err)" = "errands: limit" ;;
    *) return 1 ;;
  esac && "$errands" judge pair out > /dev/null
}

is_prefix() { # job: whether what was written is a prefix of what the job otherwise writes
  if [ "$1" = serve ]; then
    test ! -s out
  else
    head -c "$(stat -c %s out)" good | cmp -s - out
  fi
}

try() { # job, words: each allocation refused, alone and with all after it
  local job=$1 status from number memory good idle
  shift
  status=$(run -- "$@")
  cp out good
  is_good "$status" "$job" || { echo "$job: without refusals it ended with $status"; exit 1; }
  for from in "" REFUSE_FROM=1; do
    number=0 memory=0 good=0 idle=0
    # threads change how many allocations there are, so the end is where many runs in a row made fewer
    while [ "$idle" -lt 20 ]; do
      number=$((number + 1))
      status=$(run REFUSE="$number" $from -- "$@")
      if [ ! -e refused ]; then
        is_good "$status" "$job" || { echo "$job: nothing was refused, and it ended with $status"; exit 1; }
        idle=$((idle + 1))
        continue
      fi
      idle=0
      if [ "$status" = 7 ] && [ "$(cat err)" = "errands: memory" ] && is_prefix "$job"; then
        memory=$((memory + 1))
      elif is_good "$status" "$job"; then
        good=$((good + 1))
      else
        echo "$job: allocation $number ${from:+and all after it }refused: status $status, $(cat err)"
        exit 1
      fi
    done
    [ $((memory + good)) -gt 0 ] || { echo "$job: no allocation could be refused in this program"; exit 1; }
    echo "$job: refused ${from:+with all after it }$((memory + good)), out of memory $memory, made up for $good"
  done
}

try bundle
try run run map script
try "run --trace" run --trace map script
try "run --trace of one cell" run --trace cell arrival
try judge judge cell trace
try map map map
try serve serve pair served
