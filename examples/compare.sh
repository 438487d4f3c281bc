# Part of check.sh, and of whatever else runs the program on examples: finds the program, makes a room for what it
# writes, and compares that with what is expected. `. compare.sh` sets
#
#   here      the folder of the examples
#   program   the program: the one that LUX names, else the one that is built here, which is built where it is missing
#   room      a new folder, with the empty file `nothing`, which is removed in the end
#   passed    how many comparisons were right so far
#   failed    how many were not
#
# and the functions below.
here=$(cd "$(dirname "${BASH_SOURCE[0]}")" && pwd)
if [ -n "$LUX" ]; then
  program=$(realpath "$LUX")
else
  program=$here/../crates/lux/out/lux
  [ -x "$program" ] || "$here/../build"
fi
if [ ! -x "$program" ]; then
  echo "examples: the program is not built"
  exit 1
fi
room=$(mktemp -d) || exit 1
trap 'rm -rf "$room"' EXIT
: >"$room/nothing"
passed=0 failed=0

# Compares a run that left stdout, stderr and status in $room with two expected files and a status.
compare() {
  local name=$1 stdout=$2 stderr=$3 status=$4
  if cmp -s "$room/stdout" "$stdout" && cmp -s "$room/stderr" "$stderr" && [ "$(cat "$room/status")" = "$status" ]; then
    passed=$((passed + 1))
  else
    failed=$((failed + 1))
    echo "examples: $name differs: status $(cat "$room/status") (expected $status), note: $(head -c 200 "$room/stderr")"
  fi
}

# answer WORD..: runs the words in the current folder. Its output and its notes go where the caller sends them.
answer() {
  "$program" "$@"
  echo $? >"$room/status"
}

# note LINE: writes the line, or nothing, as what is expected on standard error.
note() {
  if [ -n "$1" ]; then echo "$1" >"$room/note"; else : >"$room/note"; fi
}

# run NAME STDOUT NOTE STATUS WORD..: runs the words in the current folder, and compares. STDOUT is a file; NOTE is a
# line, or nothing.
run() {
  local name=$1 stdout=$2 note=$3 status=$4
  shift 4
  answer "$@" >"$room/stdout" 2>"$room/stderr"
  note "$note"
  compare "$name" "$stdout" "$room/note" "$status"
}
