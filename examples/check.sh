#!/usr/bin/env bash
# Runs the built program on the examples, and compares what it writes, what it notes and how it ends.
#
# A case is a folder of cases/ with the files `words` (one word a line) and whatever the words name, and with what is
# expected: `stdout` and `stderr` (absent: nothing) and `status` (absent: 0). It is run in its own folder.
#
# What several shooters write may differ from run to run: five projects run with 2, 4 and 16 of them and the sports hall
# with 64, three times each, or RUNS times with `check.sh RUNS`, and check_reports.py checks each report. In the end
# fuzz.sh runs damaged files for ten seconds.
#
# LUX names another program than the one that is built here.
runs=${1:-3}
. "$(dirname "$0")/compare.sh"

# run_project NAME FILE: runs a project with one shooter, which ends with the status of its report; also as CSV, where that
# is kept.
run_project() {
  local status
  status=$(sed -n 's/^status //p' "$2.run.txt")
  run "$1-project" "$2.run.txt" "" "$status" run "$2.toml" --shooters 1
  [ ! -f "$2.run.csv" ] || run "$1-csv" "$2.run.csv" "" "$status" run "$2.toml" --shooters 1 --csv
}

# run_audit NAME SYSTEM LEDGER: audits what was settled, with its intervals and without them. Both are balanced.
run_audit() {
  { echo balanced && grep '^interval ' "$3"; } >"$room/balanced"
  grep -v '^interval ' "$3" >"$room/ledger"
  run "$1-audit" "$room/balanced" "" 0 audit "$2" "$3"
  run "$1-audit-without-intervals" "$room/balanced" "" 0 audit "$2" "$room/ledger"
}

cd "$here" || exit 1
run two-patches two-patches.solve.txt "" 0 solve two-patches.txt
run store-room store-room.solve.txt "" 0 solve store-room.system.txt
run office office.solve.txt "" 0 solve office.system.txt
run_audit two-patches two-patches.txt two-patches.solve.txt
run_audit store-room store-room.system.txt store-room.solve.txt
run_audit office office.system.txt office.solve.txt
for luminaire in batwing street spot louvre; do
  run "$luminaire" "$luminaire.photo.txt" "" 0 photo "$luminaire.ies"
done
for luminaire in batwing street spot; do
  run "$luminaire-eulumdat" "$luminaire-eulumdat.photo.txt" "" 0 photo "$luminaire.ldt"
done
run small-eulumdat small.photo.txt "" 0 photo small.ldt
cd "$here/.." || exit 1
for project in closet cube corridor hall; do
  run_project "$project" "examples/$project"
done
for project in office classroom seminar-room; do
  run_project "$project" "examples/$project/$project"
done

# The report of the sports hall has half a million bytes, and is kept as what its checks say and as a checksum. The
# report itself is needed once more below.
hall=examples/sports-hall/sports-hall
hall_report=$room/sports-hall.run.txt
answer run $hall.toml --shooters 1 >"$hall_report" 2>"$room/stderr"
grep -v -E '^(patch [0-9]|point )' "$hall_report" >"$room/stdout"
compare sports-hall-checks $hall.checks.txt "$room/nothing" 0
sha256sum <"$hall_report" | cut -d ' ' -f 1 >"$room/stdout"
compare sports-hall-bytes $hall.run.sha256 "$room/nothing" 0

# draw NAME PLAN NOTE STATUS WORD..: draws a plan in characters. PLAN is a file; NOTE is a line, or nothing.
draw() {
  local program=examples/plan.sh name=$1-plan plan=$2 note=$3 status=$4
  shift 4
  run "$name" "$plan" "$note" "$status" --plain "$@"
}

"$program" run examples/office/office.toml --shooters 1 --csv >"$room/office.csv"
draw office-table examples/office/office.plan.txt "" 0 examples/office/office.toml "$room/office.csv"
draw office-lines examples/office/office.plan.txt "" 0 examples/office/office.toml examples/office/office.run.txt desk
draw hall-lines examples/hall.plan.txt "" 0 examples/hall.toml examples/hall.run.txt
draw missing-check "$room/nothing" "plan: the project has no check table" 1 \
  examples/office/office.toml examples/office/office.run.txt table
draw other-project "$room/nothing" "plan: the report is of another project: check 0 is floor there, not desk" 1 \
  examples/office/office.toml examples/hall.run.txt
draw no-checks "$room/nothing" "plan: the project has no table [[check]]" 1 examples/cube.toml examples/cube.run.txt
cd "$here" || exit 1

for case in cases/*/; do
  name=$(basename "$case")
  cd "$here/$case" || exit 1
  mapfile -t words <words
  answer "${words[@]}" >"$room/stdout" 2>"$room/stderr"
  stdout=stdout stderr=stderr status=0
  [ -f stdout ] || stdout=$room/nothing
  [ -f stderr ] || stderr=$room/nothing
  [ -f status ] && status=$(cat status)
  compare "$name" "$stdout" "$stderr" "$status"
  if [ "${words[0]}" = solve ] && [ "$status" = 0 ]; then run_audit "$name" "${words[1]}" stdout; fi
done

. "$here/check_files.sh"

# check_shooters PROJECT REFERENCE SHOOTERS..: runs a project with several shooters and has all reports checked, each
# with the status that its run ended with. What a run notes goes into its report, which is then none.
check_shooters() {
  local name=${1##*/} project=$1.toml reference=$2 shooters number report
  local reports=("1:$(sed -n 's/^status //p' "$reference"):$reference")
  for shooters in "${@:3}"; do
    for ((number = 1; number <= runs; number++)); do
      report=$room/$name-$shooters-$number
      "$program" run "$project" --shooters "$shooters" >"$report" 2>&1
      reports+=("$shooters:$?:$report")
    done
  done
  if python3 examples/check_reports.py "$project" "$reference" "${reports[@]}" >"$room/answer" 2>&1; then
    passed=$((passed + 1))
  else
    failed=$((failed + 1))
    trap - EXIT
    echo "examples: $name with several shooters: $(tail -n 1 "$room/answer"); the reports are kept in $room"
    head -n -1 "$room/answer" | head -n 5
  fi
}

# count STATUS TEST: counts a test that ended so; it is skipped where it ended with 77.
count() {
  case $1 in
    0) passed=$((passed + 1)) ;;
    77) echo "examples: $2 is skipped: there is no python3, or none with tomllib, as 3.11 has it" ;;
    *)
      failed=$((failed + 1))
      echo "examples: $2 failed"
      ;;
  esac
}

# audit_runs PROJECT: runs a project with 1, 2, 4, 16 and 64 shooters, and audits each report by the system that
# system_text.py makes of the project. Each is balanced, and the audit's intervals are those of the report.
audit_runs() {
  local name=${1##*/} shooters
  python3 examples/system_text.py "examples/$1.toml" >"$room/system"
  for shooters in 1 2 4 16 64; do
    "$program" run "examples/$1.toml" --shooters "$shooters" | examples/ledger_text.sh >"$room/ledger"
    { echo balanced && grep '^interval' "$room/ledger"; } >"$room/balanced"
    run "$name-audit-of-$shooters" "$room/balanced" "" 0 audit "$room/system" "$room/ledger"
  done
}

# audit_case FOLDER: audits the kept report of a case by the system of its project, as above.
audit_case() {
  local name
  name=$(basename "$1")
  cd "$1" || exit 1
  python3 "$here/system_text.py" project.toml >"$room/system"
  "$here/ledger_text.sh" stdout >"$room/ledger"
  { echo balanced && grep '^interval' "$room/ledger"; } >"$room/balanced"
  run "$name-audit" "$room/balanced" "" 0 audit "$room/system" "$room/ledger"
  cd "$here/.." || exit 1
}

cd "$here/.." || exit 1
examples/check_reports_test.sh
tests=$?
count $tests check_reports_test.sh
if [ $tests != 77 ]; then
  for project in closet office/office classroom/classroom hall seminar-room/seminar-room; do
    check_shooters "examples/$project" "examples/$project.run.txt" 2 4 16
  done
  check_shooters $hall "$hall_report" 64
fi
examples/checker_test.sh
count $? checker_test.sh
examples/audit_tools_test.sh
tests=$?
count $tests audit_tools_test.sh
if [ $tests != 77 ]; then
  for project in closet cube corridor hall office/office classroom/classroom seminar-room/seminar-room; do
    audit_runs "$project"
  done
  # Which patches have the reflectance of which region, another program decides once more.
  for case in "$here"/cases/run-region-*/ "$here"/cases/run-walls-*/; do
    if [ -f "$case/stdout" ]; then audit_case "$case"; fi
  done
fi
LUX=$program examples/migrate_test.sh >"$room/answer" 2>&1
tests=$?
count $tests migrate_test.sh
[ $tests = 0 ] || [ $tests = 77 ] || head -n 5 "$room/answer"
LUX=$program examples/fuzz.sh 10 1 >"$room/answer" 2>&1
tests=$?
count $tests fuzz.sh
[ $tests = 0 ] || [ $tests = 77 ] || head -n 5 "$room/answer"

echo "examples: $passed passed, $failed failed"
[ "$failed" = 0 ]
