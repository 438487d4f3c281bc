#!/usr/bin/env bash
# Has checker.py check right ledgers and damaged ones, and sees that it answers each as it must. What it must answer was
# worked out by hand, and no answer is taken from lux. Ends with 77 where the checker can't run.
examples=$(cd "$(dirname "$0")" && pwd)
python3 -c "pass" 2>/dev/null || exit 77
room=$(mktemp -d) || exit 1
trap 'rm -rf "$room"' EXIT
cd "$room" || exit 1
cp "$examples/two-patches.txt" system
cp "$examples/two-patches.solve.txt" ledger
sed '/^interval/d' ledger >plain
cases=0

# answers NAME SYSTEM LEDGER LINE..: the checker's whole answer is to be these lines. All cases are run at the end.
answers() {
  mkdir "case-$((++cases))"
  echo "$1" >"case-$cases/name"
  cp "$2" "case-$cases/system"
  cp "$3" "case-$cases/ledger"
  printf "%s\n" "${@:4}" >"case-$cases/expected"
}

# damaged EDIT LINE.., unfit EDIT LINE..: the right ledger, or its system, edited by sed, has this answer.
damaged() {
  sed "$1" ledger >damaged
  answers "ledger with $1" system damaged "${@:2}"
}
unfit() {
  sed "$1" system >unfit
  answers "system with $1" unfit plain "${@:2}"
}

# ledger_of WINS PARTS PATCH..: a ledger text, where a patch is its four numbers.
ledger_of() {
  printf "%s\n" "lux-ledger 1" "patches $(($# - 2))" "wins $1" "parts $2"
  local number=0 patch direct taken residual err
  for patch in "${@:3}"; do
    read -r direct taken residual err <<<"$patch"
    echo "patch $((number++)) direct $direct taken $taken residual $residual err $err"
  done
}

# Right ledgers. The exact flux of the first is 3200/3 and 800/3.
right=(balanced "interval 0 1066 1069" "interval 1 265 268")
answers right system ledger "${right[@]}"
answers without-intervals system plain "${right[@]}"
sed 's/$/\r/' ledger >returns
answers line-ends-of-two-bytes system returns "${right[@]}"
head -c -1 ledger >no-last-line-end
answers no-last-line-end system no-last-line-end "${right[@]}"
damaged 's/^wins 4/wins 5/' "${right[@]}"
damaged 's/^wins 4/wins 133/' "${right[@]}"
damaged 's/^parts 1/parts 4294967295/' "${right[@]}"
ledger_of 3 1 "1000 1062 0 500000000000" "0 250 15 500000000000" >unfinished
answers unfinished system unfinished "residual 1 15"
sed 's/^threshold 10/threshold 16/' system >coarse
answers finished-for-a-greater-threshold coarse unfinished balanced "interval 0 1062 1069" "interval 1 265 272"
sed 's/^direct 1000 0/direct 0 0/' system >dark
ledger_of 0 1 "0 0 0 0" "0 0 0 0" >nothing
answers dark dark nothing balanced "interval 0 0 0" "interval 1 0 0"
sed 's/^direct 1000 0/direct 10 0/' system >dim
ledger_of 1 1 "10 10 0 0" "0 0 2 500000000000" >one-take
answers one-take dim one-take balanced "interval 0 10 11" "interval 1 2 4"
printf "%s\n" "lux-system 1" "patches 1" "threshold 100" "direct 1000" "reflectance 950" "shares 400000000" >own
ledger_of 3 1 "1000 1524 55 120000000000" >own-ledger
answers own-light own own-ledger balanced "interval 0 1579 1615"
for text in store-room office; do
  mapfile -t intervals < <(grep '^interval' "$examples/$text.solve.txt")
  answers "$text" "$examples/$text.system.txt" "$examples/$text.solve.txt" balanced "${intervals[@]}"
done

# A patch that keeps hardly more than a twentieth beside one that keeps three quarters, and nothing is taken. The bound
# of takes goes by the one that keeps least, and the spill by the one that passes on most of what it keeps.
sed 's/^direct 1000/direct 9/; s/^reflectance 500/reflectance 950/; s/^shares 0 5.*/shares 0 999999999/' system >bright
ledger_of 17 1 "9 0 9 0" "0 0 0 0" >most-wins
answers most-wins bright most-wins balanced "interval 0 9 12" "interval 1 0 171"
ledger_of 18 1 "9 0 9 0" "0 0 0 0" >too-many-wins
answers too-many-wins bright too-many-wins "wins 18 17"

# dark_system N: a system of so many patches without any light.
dark_system() {
  local zeros row
  zeros=$(printf " 0%.0s" $(seq "$1"))
  printf "%s\n" "lux-system 1" "patches $1" "threshold 1" "direct$zeros" "reflectance$zeros"
  for ((row = 0; row < $1; row++)); do echo "shares$zeros"; done
}
dark_system 1024 >greatest
mapfile -t patches < <(yes "0 0 0 0" | head -n 4097)
ledger_of 0 1 "${patches[@]:0:1024}" >as-many
mapfile -t intervals < <(seq -f "interval %.0f 0 0" 0 1023)
answers greatest greatest as-many balanced "${intervals[@]}"
dark_system 1025 >greater
answers greater greater as-many "no system: size"
ledger_of 0 1 "${patches[@]:1}" >greatest-ledger
answers greatest-ledger greatest greatest-ledger "size 1024 4096"
ledger_of 0 1 "${patches[@]}" >greater-ledger
answers greater-ledger greatest greater-ledger "no ledger: head or patches"

# Each finding, and of several the first in the order of the tests.
ledger_of 4 1 "1000 1062 4 250000000000" "0 265 0 500000000000" "0 0 0 0" >three
answers three-patches system three "size 2 3"
ledger_of 1 1 "1000 1000 0 0" >one
answers one-patch system one "size 2 1"
damaged 's/direct 1000/direct 999/' "direct 0 1000 999"
damaged 's/^patch 1 direct 0/patch 1 direct 1/' "direct 1 0 1"
damaged 's/^parts 1/parts 0/' "err 0 250000000000"
damaged 's/err 250000000000/err 18446744073709551615/' "err 0 18446744073709551615"
damaged 's/err 500000000000/err 1000000000000/' "err 1 1000000000000"
damaged 's/err 500000000000/err 999999999999/' "unbalanced 1 265999999999999 265500000000000"
damaged 's/err 250000000000/err 18446744073709551615/; s/parts 1/parts 4294967295/' \
  "unbalanced 0 18447810073709551615 1066250000000000"
damaged 's/residual 4/residual 10/' "residual 0 10"
damaged 's/residual 4/residual 18446744073709551615/' "residual 0 18446744073709551615"
damaged 's/residual 4/residual 9/' "unbalanced 0 1071250000000000 1066250000000000"
damaged 's/taken 1062/taken 18446744073709551615/' "unbalanced 0 18446744073709551619250000000000 1066250000000000"
damaged 's/err 250000000000/err 250000000001/' "unbalanced 0 1066250000000001 1066250000000000"
damaged 's/taken 265/taken 266/' "unbalanced 0 1066250000000000 1066500000000000"
damaged 's/^wins 4/wins 134/' "wins 134 133"
damaged 's/^interval 1 265 268/interval 1 265 267/' "bounds 1 265 268"
damaged 's/^interval 0 1066/interval 0 1065/' "bounds 0 1066 1069"
damaged 's/direct 1000/direct 999/; s/wins 4/wins 134/; s/residual 0/residual 10/' "direct 0 1000 999"
damaged 's/residual 4/residual 10/; s/err 500000000000/err 1000000000000/' "err 1 1000000000000"
damaged 's/taken 1062/taken 1063/; s/residual 0/residual 10/' "residual 1 10"
damaged 's/wins 4/wins 134/; s/^interval 0 1066/interval 0 0/' "wins 134 133"
damaged 's/wins 4/wins 134/; s/taken 265/taken 266/' "unbalanced 0 1066250000000000 1066500000000000"

# Ledgers that a careless checker would take: see docs/CHECKER.md.
ledger_of 0 1 "1000 0 1000 0" "0 0 0 0" >untouched
answers nothing-taken system untouched "residual 0 1000"
ledger_of 0 1 "1000 0 9 991000000000000" "0 0 0 0" >hidden
answers hidden-in-the-fraction system hidden "err 0 991000000000000"
ledger_of 4 1 "2000 2124 8 500000000000" "0 530 1 0" >other-light
answers other-light system other-light "direct 0 1000 2000"
ledger_of 4 1 "1000 1100 4 250000000000" "0 265 0 500000000000" >invented
answers invented system invented "unbalanced 0 1104250000000000 1066250000000000"
ledger_of 4 1 "1000 18014398509483046 4 250000000000" "0 265 0 500000000000" >wrapped
answers wrapped-at-64-bits system wrapped "unbalanced 0 18014398509483050250000000000 1066250000000000"
ledger_of 4 1 "1000 1100 -32 750000000000" "0 275 0 0" >negative
answers negative system negative "no text of its kind: ledger"

# What is no ledger text, and no system text.
damaged 's/taken 1062/taken 18446744073709551616/' "a number of more than 64 bits: ledger"
damaged 's/taken 1062/taken 100000000000000000000/' "no text of its kind: ledger"
damaged 's/taken 1062/taken 01062/' "no text of its kind: ledger"
damaged 's/taken 1062/taken +1062/' "no text of its kind: ledger"
damaged 's/taken 1062/taken 1.062e3/' "no text of its kind: ledger"
damaged 's/ taken/  taken/' "no text of its kind: ledger"
damaged 's/ledger 1/ledger 2/' "no text of its kind: ledger"
damaged '4d' "no text of its kind: ledger"
damaged '$s/$/\n/' "no text of its kind: ledger"
damaged 's/^parts 1/parts 4294967296/' "no ledger: head or patches"
damaged 's/^patches 2/patches 3/' "no ledger: head or patches"
damaged 's/^patch 0/patch 1/; t; s/^patch 1/patch 0/' "no ledger: head or patches"
damaged '$d' "no ledger: intervals"
damaged '$p' "no ledger: intervals"
damaged 's/^interval 0/interval 1/; t; s/^interval 1/interval 0/' "no ledger: intervals"
unfit 's/^reflectance 500/reflectance 951/' "no system: values"
unfit 's/^shares 500000000 0/shares 999999999 1/' "no system: values"
unfit 's/^threshold 10/threshold 0/' "no system: values"
unfit 's/^patches 2/patches 3/' "no system: size"
unfit '$p' "no system: size"

# All cases in one Python, as it is slow to start.
python3 - "$examples/checker.py" case-* <<'END'
import contextlib, os, runpy, sys

checker, *cases = sys.argv[1:]
sys.argv = [checker, "system", "ledger"]
for case in cases:
    os.chdir(case)
    with open("answer", "w") as answer, contextlib.redirect_stdout(answer), contextlib.suppress(SystemExit):
        runpy.run_path(checker, run_name="__main__")
    os.chdir("..")
END
failed=0
for case in case-*; do
  if ! cmp -s "$case/answer" "$case/expected"; then
    failed=1
    echo "checker: $(<"$case/name"): $(head -n 1 "$case/answer" | cut -c 1-100), must be $(head -n 1 "$case/expected")"
  fi
done

# The page has the whole program, in pieces.
sed -n '/^```python$/,/^```$/p' "$examples/../docs/CHECKER.md" | grep -v '^```' >program
if ! diff -B program "$examples/checker.py" >pieces; then
  failed=1
  echo "checker: docs/CHECKER.md has another program: $(sed -n 2p pieces)"
fi
[ "$failed" = 0 ]
