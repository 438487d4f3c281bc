#!/usr/bin/env bash
# Breaks a right report in many ways, and sees that check_reports.py refuses each for its reason and for no other. Ends
# with 77 where the checker can't run.
checker=$(cd "$(dirname "$0")" && pwd)/check_reports.py
room=$(mktemp -d) || exit 1
trap 'rm -rf "$room"' EXIT
cp "${checker%/*}"/closet.{toml,run.txt} "$room"
cd "$room" || exit 1

answer=$(python3 "$checker" closet.toml closet.run.txt 1:0:closet.run.txt 2>&1)
case $? in
  0) reports=(1:0:closet.run.txt) ;;
  77 | 127) exit 77 ;;
  *) echo "$answer" && exit 1 ;;
esac

# faulty NAME FAULT..: the report of this name has faults that begin with these words.
faulty() {
  reports+=("1:0:$1")
  printf "$1: %s\n" "${@:2}" >>expected
}

# broken NAME EDIT FAULT..: the right report, edited by sed, has these faults.
broken() {
  sed "$2" closet.run.txt >"$1"
  faulty "$1" "${@:3}"
}

# refused PROJECT REFERENCE SHOOTERS:STATUS:REPORT..: how the faults of these reports begin, at least one of which is
# faulty.
refused() {
  python3 "$checker" "$@" | sed -En 's/^([^:]*): ((patch|check) [^:]*: )?(line [0-9]+|[a-z]+( [a-z]+)*).*/\1: \4/p'
  [ "${PIPESTATUS[0]}" = 1 ] || echo "$*: not refused"
}

broken sum 's/direct 799822593974/direct 799822593975/' "direct flux"
broken direct 's/direct 50098494233/direct 50098494234/' "direct flux" direct "not balanced"
broken taken 's/taken 22617155820/taken 22617155821/' interval "not balanced"
broken residual 's/residual 33263/residual 33264/' interval "not balanced"
broken fraction 's/err 462866370300/err 462866370301/' "not balanced"
broken carried 's/33263 err 989125341700/33262 err 1989125341700/' interval
broken carried-too-far 's/33263 err 989125341700/33261 err 2989125341700/' err interval
broken wins 's/wins 118/wins 1248859/' "not paid"
broken more-wins 's/wins 118/wins 2666076/' "not paid" "too many wins"
broken parts 's/parts 2/parts 3/' parts
broken low-end 's/low 22617189083 /low 22617189082 /' interval
broken high-end 's/high 22617475334$/high 22617475335/' interval
broken ends-exchanged 's/\(22617189083\) high \(22617475334\)/\2 high \1/' "apart from the reference" interval point
broken low-end-of-point 's/^point 5 low 689876249292/point 5 low 689876249291/' point
broken high-end-of-point 's/^\(point 11 .*\) 24549554335/\1 24549554334/' point
broken points-exchanged 's/^point 2 /point 4 /; t; s/^point 4 /point 2 /' "line 24"
broken bright-point 's/^point 5 low 689876249292 high 689876603175/point 5 low 789876249292 high 789876603175/' \
  average point uniformity
broken low-end-of-average 's/^average low 143333/average low 143332/' average
broken high-end-of-average 's/ high 143334/ high 143335/' average
broken low-end-of-uniformity 's/^uniformity low 137/uniformity low 136/' uniformity
broken high-end-of-uniformity 's/ high 138/ high 139/' uniformity
broken average-below-its-limit 's/ low 143333 high 143334/ low 99999 high 99999/' average "verdict on the average"
broken open-average 's/100000 pass/100000 open/' status "verdict on the average"
broken open-uniformity '/^uniformity/s/pass/open/; s/^status 0/status 2/' "ended with" "verdict on the uniformity"
broken failed-uniformity '/^uniformity/s/pass/fail/' status "verdict on the uniformity"
broken status 's/^status 0/status 2/' status "ended with"
broken header 's/report 1/report 2/' "line 1"
broken line-ends 's/$/\r/' "line 1"
broken patches 's/patches 10/patches 11/' "line 2"
broken luminaires 's/luminaires 1/luminaires 2/' "line 3"
broken shooters 's/shooters 1/shooters 2/' "line 4"
broken threshold 's/threshold 1000000/threshold 1000001/' "line 5"
broken two-blanks 's/^wins /wins  /' "line 7"
broken leading-zero 's/^parts /parts 0/' "line 8"
broken sign 's/^patch 0 direct /&+/' "line 9"
broken past-128-bits 's/33263/340282366920938463463374607431768211456/' "line 11"
broken blank-behind 's/^patch 5 .*/& /' "line 14"
broken without-patch '/^patch 5/d' "line 14"
broken name-of-check 's/^check floor/check wall/' "line 19"
broken points 's/points 12/points 11/' "line 19"
broken average-limit 's/limit 100000/limit 100001/' "line 20"
broken uniformity-limit 's/limit 100 /limit 1000 /' "line 21"
broken other-verdict 's/100000 pass/100000 passed/' "line 20"
broken without-check '/^check/,/^point 11/d' "line 19"
broken without-point '/^point 11/d' "line 33"
broken without-status '/^status/d' "line 34"
broken line-behind '$p' "line 35"
head -c -1 closet.run.txt >no-last-line-end
faulty no-last-line-end "line 34"
{ cat closet.run.txt && printf x; } >word-behind
faulty word-behind "line 35"
faulty no-file "cannot be read"

sed 's/^threshold = .*/threshold = 772044/' closet.toml >strict.toml
sed 's/^threshold .*/threshold 772044/' closet.run.txt >at-threshold
sed 's/307393461156 high 307394276099/307394276100 high 307394276101/' closet.run.txt >other
sed 's/^shooters 1/shooters 4/' closet.run.txt >of-four
cp closet.run.txt ended
cp closet.run.txt apart
printf "%s\n" "of-four: parts" "ended: ended with" "at-threshold: not finished" \
  "apart: apart from the reference" >>expected
{
  refused closet.toml closet.run.txt "${reports[@]}" 4:0:of-four 1:1:ended
  refused strict.toml at-threshold 1:0:at-threshold
  refused closet.toml other 1:0:apart
} | sort -u >answer
if ! sort expected | diff - answer; then
  echo "check_reports: < must be a fault and is none, > is a fault and must be none"
  exit 1
fi
