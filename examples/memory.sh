#!/usr/bin/env bash
# Refuses the program each growth of its memory in turn, one in each run, and sees that it answers want of memory:
# status 8, the note `out of memory` and nothing on standard output; or, where it can do without, what it answers else.
# Then it refuses each thread in turn, which must change no answer. It takes one to two minutes.
#
# It prints for each command how many growths there are, how many of them were answered with want of memory and how many
# the program did without; and how many threads it starts. A run that ends otherwise is a line. refuse.c beside it is
# what refuses, compiled by cc, or by the compiler that CC names.
#
# LUX names another program than the one that is built here. Exit status: 0 where all runs ended as they must, 1 where
# one did not, and 77 where there is no C compiler, or a program that isn't linked with the C library at its start.
. "$(dirname "$0")/compare.sh"
if ! "${CC:-cc}" -O1 -shared -fPIC -o "$room/refuse.so" "$here/refuse.c" -ldl 2>"$room/stderr"; then
  echo "memory: skipped, as refuse.c is not compiled: $(head -n 1 "$room/stderr")"
  exit 77
fi

# refuse KIND NUMBER WORD..: runs the words, and refuses the growth (GROWTH) or the thread (THREAD) of this number.
# There was one where the file `refusal` is there afterwards.
refuse() {
  local kind=$1 number=$2
  shift 2
  rm -f "$room/refusal"
  timeout 60 env LD_PRELOAD="$room/refuse.so" REFUSAL="$room/refusal" "REFUSED_$kind=$number" "$program" "$@" \
    >"$room/stdout" 2>"$room/stderr"
  echo $? >"$room/status"
}

is_own_answer() {
  cmp -s "$room/stdout" "$room/own" && cmp -s "$room/stderr" "$room/own_note" && cmp -s "$room/status" "$room/own_status"
}
is_want_of_memory() {
  [ "$(cat "$room/status")" = 8 ] && [ ! -s "$room/stdout" ] && cmp -s "$room/stderr" "$room/want"
}

# refuse_each KIND WORD..: refuses each growth or thread of the words. `wants` are those that were answered with want of
# memory, `others` those with the run's own answer.
refuse_each() {
  local kind=$1 number
  shift
  wants=0 others=0
  for ((number = 1; ; number++)); do
    refuse "$kind" "$number" "$@"
    if is_own_answer; then
      [ -e "$room/refusal" ] || break
      others=$((others + 1))
    elif [ "$kind" = GROWTH ] && [ -e "$room/refusal" ] && is_want_of_memory; then
      wants=$((wants + 1))
    else
      failed=$((failed + 1))
      echo "memory: $*: $kind $number refused: status $(cat "$room/status"), note: $(head -c 200 "$room/stderr")"
      [ -e "$room/refusal" ] || break
    fi
  done
}

# sweep WORD..: refuses all that the words ask for.
sweep() {
  local growths
  answer "$@" >"$room/own" 2>"$room/own_note"
  mv "$room/status" "$room/own_status"
  refuse_each GROWTH "$@"
  growths="$((wants + others)) growths, $wants answered with want of memory, $others done without"
  refuse_each THREAD "$@"
  echo "memory: $*: $growths; threads: $others"
}

echo "lux: out of memory" >"$room/want"
cd "$here/.." || exit 1
refuse GROWTH 1 solve examples/two-patches.txt
if [ ! -e "$room/refusal" ]; then
  echo "memory: skipped, as nothing can stand between this program and the C library"
  exit 77
fi
sweep solve examples/two-patches.txt
sweep photo examples/cases/photo-lf-line-ends/luminaire.ies
sweep photo examples/small.ldt
"$program" audit examples/two-patches.txt examples/two-patches.solve.txt >"$room/stdout" 2>"$room/stderr"
if [ $? = 3 ]; then
  echo "memory: audit is no command of this program"
else
  sweep audit examples/two-patches.txt examples/two-patches.solve.txt
  sweep audit examples/cases/audit-bounds/system.txt examples/cases/audit-bounds/ledger.txt
fi
sweep run examples/cube.toml --shooters 2
# A report with a check as CSV, notes with a name and with a number, and the command that reads no file.
sweep run examples/closet.toml --shooters 1 --csv
sweep run examples/cases/run-check-misspelt/project.toml
sweep run examples/cases/run-region-key-of-the-second/project.toml
sweep photo examples/cases/photo-cut-after-token-07/luminaire.ies
sweep gen 0
echo "memory: $failed runs ended otherwise"
[ "$failed" = 0 ]
