#!/usr/bin/env bash
# Sees that a project of version 1 and what migrate.py makes of it are answered alike: each example of version 1 gives
# the bytes that are kept of it, as lines and as CSV, and each case of `run` whose project can be turned has the output,
# the note and the status that the case has. Then it sees what migrate.py writes and refuses. Ends with 77 where it
# can't run.
#
# LUX names another program than the one that is built here.
python3 -c "import tomllib" 2>/dev/null || exit 77
. "$(dirname "$0")/compare.sh"
cd "$here/.." || exit 1

# Each example and each case in one Python, as it is slow to start: a line for each, `example` and its project, or `case`
# and its folder. What was turned stands in a folder of its number.
python3 - "$here" "$room" >"$room/turned" <<'PYTHON' || exit 1
import os, pathlib, sys

sys.dont_write_bytecode = True
examples, room = map(pathlib.Path, sys.argv[1:])
sys.path.insert(0, str(examples))
from migrate import migrated
from rooms import Unusable, load_project


def turn(kind, name, project, word):
    try:
        with open(project, encoding="utf-8", newline="") as file:
            new = migrated(file.read())
    except (Unusable, OSError, ValueError):
        return
    folder = room / f"project-{turn.count}"
    folder.mkdir()
    (folder / word).write_text(new, encoding="utf-8", newline="")
    print(kind, folder, word, name)
    turn.count += 1


turn.count = 0
for project in sorted([*examples.glob("*.toml"), *examples.glob("*/*.toml")]):
    if load_project(project)["version"] == 1:
        turn("example", project.with_suffix(""), project, project.name)
for folder in sorted((examples / "cases").iterdir()):
    words = (folder / "words").read_text().split("\n")[:-1]
    if words[:1] == ["run"]:
        for word in words[1:]:
            if word and os.path.isfile(folder / word):
                turn("case", folder, folder / word, word)
PYTHON

# run_example FOLDER PROJECT NAME: an example, turned. run_case FOLDER PROJECT CASE: a case, among whose files the turned
# project has its old name.
run_example() {
  local status
  status=$(sed -n 's/^status //p' "$3.run.txt")
  run "${3##*/}-migrated" "$3.run.txt" "" "$status" run "$1/$2" --shooters 1
  [ ! -f "$3.run.csv" ] || run "${3##*/}-migrated-csv" "$3.run.csv" "" "$status" run "$1/$2" --shooters 1 --csv
}
run_case() {
  local words stdout=$3/stdout stderr=$3/stderr status=0
  cp -r -n "$3/." "$1"
  mapfile -t words <"$3/words"
  [ -f "$stdout" ] || stdout=$room/nothing
  [ -f "$stderr" ] || stderr=$room/nothing
  [ -f "$3/status" ] && status=$(cat "$3/status")
  cd "$1" || exit 1
  answer "${words[@]}" >"$room/stdout" 2>"$room/stderr"
  cd "$here/.." || exit 1
  compare "${3##*/}-migrated" "$stdout" "$stderr" "$status"
}
while read -r kind folder project name; do "run_$kind" "$folder" "$project" "$name"; done <"$room/turned"
examples=$(grep -c '^example' "$room/turned") cases=$(grep -c '^case' "$room/turned")
if [ "$examples" = 0 ] || [ "$cases" = 0 ]; then
  failed=$((failed + 1))
  echo "migrate: no example or no case was turned"
fi

# turned NAME TEXT EXPECTED: a project with this text becomes that one. refused NAME TEXT REASON: it becomes none.
turned() {
  printf "%b" "$2" >"$room/old.toml"
  printf "%b" "$3" >"$room/new.toml"
  python3 "$here/migrate.py" "$room/old.toml" >"$room/stdout" 2>"$room/stderr"
  echo $? >"$room/status"
  compare "$1" "$room/new.toml" "$room/nothing" 0
}
refused() {
  printf "%b" "$2" >"$room/old.toml"
  python3 "$here/migrate.py" "$room/old.toml" >"$room/stdout" 2>"$room/stderr"
  echo $? >"$room/status"
  note "migrate: $room/old.toml: $3"
  compare "$1" "$room/nothing" "$room/note" 1
}
turned migrate-plain "version = 1\n[room]\nwalls = 500\n" "version = 2\n[room]\nwalls = [500, 500, 500, 500]\n"
turned migrate-comments "# version = 1\r\nversion=1 # one\r\n[room]\r\n# walls = 1\r\nwalls=0x1_F4\r\n" \
  "# version = 1\r\nversion=2 # one\r\n[room]\r\n# walls = 1\r\nwalls=[0x1_F4, 0x1_F4, 0x1_F4, 0x1_F4]\r\n"
turned migrate-inline-without-line-end "room = { 'walls' = +5 }\n\"version\" = 1" \
  "room = { 'walls' = [+5, +5, +5, +5] }\n\"version\" = 2"
turned migrate-dotted "version = 1\nroom.walls = 5\n" "version = 2\nroom.walls = [5, 5, 5, 5]\n"
turned migrate-text-of-a-check "version = 1\n[room]\nwalls = 5\n[[check]]\nname = 'walls = 7'\n" \
  "version = 2\n[room]\nwalls = [5, 5, 5, 5]\n[[check]]\nname = 'walls = 7'\n"
refused migrate-version-2 "version = 2\n[room]\nwalls = [5, 5, 5, 5]\n" "its version is not 1"
refused migrate-version-true "version = true\n[room]\nwalls = 5\n" "its version is not 1"
refused migrate-empty "" "its version is not 1"
refused migrate-regions "version = 1\nregion = []\n[room]\nwalls = 5\n" "version 1 has no regions"
refused migrate-walls-missing "version = 1\n[room]\n" "room.walls is no number"
refused migrate-walls-float "version = 1\n[room]\nwalls = 5.0\n" "room.walls is no number"
refused migrate-room-number "version = 1\nroom = 5\n" "room.walls is no number"
refused migrate-walls-escaped 'version = 1\n[room]\n"w\\u0061lls" = 5\n' \
  "its version or its walls are written in another way than \`version = 1\` and \`walls = 500\`"

[ "$failed" = 0 ] || exit 1
echo "migrate: $examples examples and $cases cases of version 1 are answered as version 2"
