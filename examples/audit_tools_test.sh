#!/usr/bin/env bash
# Sees that the tools by which a run can be audited do what they say, without lux: that photometry.py writes the kept
# texts of photometry files, and system_text.py the kept system of the office; and that checker.py finds the kept report
# of each project balanced, as ledger_text.sh has its ledger, with the report's own intervals. Ends with 77 where this
# Python can't read a project.
python3 -c "import tomllib" 2>/dev/null || exit 77
top=$(cd "$(dirname "$0")/.." && pwd)
room=$(mktemp -d) || exit 1
trap 'rm -rf "$room"' EXIT
cd "$top" || exit 1
tools=$top/examples
failed=0

# same NAME EXPECTED WORD..: what the words write is this file.
same() {
  if ! "${@:3}" 2>&1 | cmp -s - "$2"; then
    failed=1
    echo "audit tools: $1 differs: $("${@:3}" 2>&1 | head -n 1 | cut -c 1-100)"
  fi
}

# refused NOTE WORD..: the words note this line, and end with 1.
refused() {
  local note status
  note=$("${@:2}" 2>&1 >/dev/null)
  status=$?
  if [ "$status $note" != "1 $1" ]; then
    failed=1
    echo "audit tools: ${*:2}: status $status, $note (expected: $1)"
  fi
}

for file in batwing street spot louvre; do
  same "$file.ies" "examples/$file.photo.txt" "$tools/photometry.py" "examples/$file.ies"
done
for file in batwing street spot; do
  same "$file.ldt" "examples/$file-eulumdat.photo.txt" "$tools/photometry.py" "examples/$file.ldt"
done
same small.ldt examples/small.photo.txt "$tools/photometry.py" examples/small.ldt
same office-system examples/office.system.txt "$tools/system_text.py" examples/office/office.toml

# A ledger is balanced for the system of its project alone.
projects="closet cube corridor hall office/office classroom/classroom seminar-room/seminar-room"
for project in $projects; do
  "$tools/system_text.py" "examples/$project.toml" >"$room/${project##*/}.system" &
done
wait
for project in $projects; do
  system=$room/${project##*/}.system
  "$tools/ledger_text.sh" "examples/$project.run.txt" >"$room/ledger"
  echo balanced >"$room/balanced"
  sed -n 's/^patch \([0-9]*\) .* low \([0-9]*\) high /interval \1 \2 /p' "examples/$project.run.txt" >>"$room/balanced"
  same "$project" "$room/balanced" "$tools/checker.py" "$system" "$room/ledger"
  [ "$(wc -c <"$system")" -le 16777216 ] || { failed=1 && echo "audit tools: the system of $project is too long"; }
done
"$tools/ledger_text.sh" <examples/closet.run.txt >"$room/closet.ledger"
same ledger-from-a-pipe "$room/closet.ledger" "$tools/ledger_text.sh" examples/closet.run.txt
sed 's/^level = 1000/level = 0/' examples/closet.toml >"$room/dark.toml"
"$tools/system_text.py" "$room/dark.toml" >"$room/dark"
echo "direct 0 0 291112409254" >"$room/finding"
same dark-luminaire "$room/finding" "$tools/checker.py" "$room/dark" "$room/closet.ledger"

refused "ledger: no whole report in lines" "$tools/ledger_text.sh" examples/closet.run.csv
sed '$d' examples/closet.run.txt >"$room/cut"
refused "ledger: no whole report in lines" "$tools/ledger_text.sh" "$room/cut"
refused "ledger: no whole report in lines" "$tools/ledger_text.sh" /dev/null
refused "ledger: usage: ledger_text.sh [REPORT]" "$tools/ledger_text.sh" "$room/cut" "$room/cut"
refused "system_text: usage: system_text.py PROJECT" "$tools/system_text.py"
unusable="no project that can be used"
refused "system_text: none.toml: $unusable: [Errno 2] No such file or directory: 'none.toml'" \
  "$tools/system_text.py" none.toml
sed 's|examples/spot|spot|' examples/closet.toml >"$room/elsewhere.toml"
refused "system_text: spot.ies: cannot be read: No such file or directory" \
  "$tools/system_text.py" "$room/elsewhere.toml"
sed 's|examples/spot.ies|examples/closet.toml|' examples/closet.toml >"$room/other.toml"
refused "system_text: examples/closet.toml: no photometry: 'width = 2000' is no number" \
  "$tools/system_text.py" "$room/other.toml"
refused "photometry: usage: photometry.py FILE" "$tools/photometry.py"
[ "$failed" = 0 ]
