# Part of check.sh: what no folder of cases can hold. Files at their limits of length and past them, files that are
# none, pipes in the place of files, and outputs that take nothing, are closed or lose their reader.
#
# It runs in a room of its own, with a small system text and a small project that have right answers.
cd "$room" || exit 1
cp "$here/two-patches.txt" two.txt
cp "$here/two-patches.solve.txt" ledger.txt
cp "$here/one.ies" .
sed 's|examples/||' "$here/cube.toml" >cube.toml
usage="lux: usage: lux solve FILE | photo FILE | run PROJECT [--shooters N] [--csv] | audit SYSTEM LEDGER | gen NUMBER"

# Words that are no command.
run no-words nothing "$usage" 3
run unknown-word nothing "$usage" 3 settle two.txt
run two-files nothing "$usage" 3 solve two.txt two.txt
run not-text nothing "$usage" 3 solve $'\xff.txt'
run not-text-of-run nothing "$usage" 3 run $'\xff.toml' --csv

# Names that lead to no file, or hardly to one.
mkdir folder
run missing-file nothing "lux: cannot read none.txt" 6 solve none.txt
run missing-photometry nothing "lux: cannot read none.ies" 6 photo none.ies
run folder nothing "lux: cannot read folder" 6 solve folder
run folder-as-project nothing "lux: cannot read folder" 6 run folder
run folder-as-ledger nothing "lux: cannot read folder" 6 audit two.txt folder
sed 's/one\.ies/folder/' cube.toml >folder.toml
run folder-as-photometry-of-project nothing "lux: cannot read folder" 6 run folder.toml
run file-as-folder nothing "lux: cannot read two.txt/two.txt" 6 solve two.txt/two.txt
ln -s loop loop
run link-to-itself nothing "lux: cannot read loop" 6 solve loop
ln -s none.txt nowhere
run link-to-nothing nothing "lux: cannot read nowhere" 6 solve nowhere
ln -s ../two.txt folder/link.txt
run link ledger.txt "" 0 solve folder/link.txt
longest=$(printf '%0255d' 0)
cp two.txt "$longest"
run name-of-255-bytes ledger.txt "" 0 solve "$longest"
run name-of-256-bytes nothing "$usage" 3 solve "0$longest"
run path-of-255-bytes ledger.txt "" 0 solve "$(printf 'folder%0239d' 0 | tr 0 /)../two.txt"
run path-of-256-bytes nothing "$usage" 3 solve "$(printf 'folder%0240d' 0 | tr 0 /)../two.txt"
if [ "$(id -u)" != 0 ]; then
  cp two.txt closed.txt
  chmod 0 closed.txt
  run file-without-permission nothing "lux: cannot read closed.txt" 6 solve closed.txt
fi

# fill FILE BYTES SIGN: fills a file with a sign up to so many bytes.
fill() {
  head -c $(($2 - $(wc -c <"$1"))) /dev/zero | tr '\0' "$3" >>"$1"
}

# Files of the greatest length, and of one byte more.
truncate -s 16777216 most.txt
run most-bytes nothing "lux: system: header" 4 solve most.txt
run most-ledger-bytes nothing "lux: ledger: header" 4 audit two.txt most.txt
truncate -s 16777217 more.txt
run too-long nothing "lux: file too long: more.txt" 6 solve more.txt
run too-long-system-of-audit nothing "lux: file too long: more.txt" 6 audit more.txt none.txt
run too-long-ledger nothing "lux: file too long: more.txt" 6 audit two.txt more.txt
truncate -s 4194304 most.ies
run most-photometry-bytes nothing "lux: photometry most.ies: short 2" 5 photo most.ies
truncate -s 4194305 more.ies
run too-long-photometry nothing "lux: file too long: more.ies" 6 photo more.ies
luminaire=$here/cases/photo-no-last-line-end
{ cat "$luminaire/luminaire.ies" && printf '\r\n'; } >blanks.ies
fill blanks.ies 4194304 ' '
run most-photometry-bytes-of-blanks "$luminaire/stdout" "" 0 photo blanks.ies
printf ' ' >>blanks.ies
run too-long-photometry-of-blanks nothing "lux: file too long: blanks.ies" 6 photo blanks.ies
sed 's/one\.ies/more.ies/' cube.toml >more.toml
run too-long-photometry-of-project nothing "lux: file too long: more.ies" 6 run more.toml
cp cube.toml most.toml
fill most.toml 4194304 '\n'
run most-project-bytes "$here/cube.run.txt" "" 0 run most.toml --shooters 1
echo >>most.toml
run too-long-project nothing "lux: file too long: most.toml" 6 run most.toml

# Devices in the place of files: one without a byte, and one without an end.
if [ -c /dev/null ] && [ -c /dev/zero ]; then
  run device-without-bytes nothing "lux: system: header" 4 solve /dev/null
  run device-without-bytes-as-ledger nothing "lux: ledger: header" 4 audit two.txt /dev/null
  run device-without-bytes-as-photometry nothing "lux: photometry /dev/null: short 1" 5 photo /dev/null
  run device-without-bytes-as-project nothing "lux: project: version" 4 run /dev/null
  run device-without-end nothing "lux: file too long: /dev/zero" 6 solve /dev/zero
  run device-without-end-as-ledger nothing "lux: file too long: /dev/zero" 6 audit two.txt /dev/zero
  run device-without-end-as-photometry nothing "lux: file too long: /dev/zero" 6 photo /dev/zero
  run device-without-end-as-project nothing "lux: file too long: /dev/zero" 6 run /dev/zero
fi

# piped WRITER STDOUT NOTE STATUS WORD..: runs the words while the command WRITER writes into the pipe `pipe`. The
# program has a minute, which it takes only where it waits for more than comes.
piped() {
  local writer=$1 lux=$program program=timeout
  shift
  rm -f pipe
  mkfifo pipe
  $writer >pipe 2>/dev/null &
  run "pipe-of-${writer// /-}-for-$4" "${@:1:3}" 60 "$lux" "${@:4}"
  kill $! 2>/dev/null
  wait $!
}

# one_by_one FILE: writes a file byte by byte. in_parts FILE: writes it in three parts, with pauses.
one_by_one() { dd if="$1" bs=1 status=none; }
in_parts() {
  head -c 1 "$1"
  sleep 0.05
  tail -c +2 "$1" | head -c 40
  sleep 0.05
  tail -c +42 "$1"
}

piped "cat two.txt" ledger.txt "" 0 solve pipe
piped "one_by_one two.txt" ledger.txt "" 0 solve pipe
piped "in_parts two.txt" ledger.txt "" 0 solve pipe
printf '%s\n' "photometry lm63" "symmetry axis" "gammas 0 180000" >one.txt
printf 'plane %s 1000000 1000000\n' 0 360000 >>one.txt
piped "in_parts one.ies" one.txt "" 0 photo pipe
piped "in_parts cube.toml" "$here/cube.run.txt" "" 0 run pipe --shooters 1
piped true nothing "lux: system: header" 4 solve pipe
piped "head -c 50 two.txt" nothing "lux: system: short" 4 solve pipe
piped "head -c 16777216 /dev/zero" nothing "lux: system: header" 4 solve pipe
piped "head -c 16777217 /dev/zero" nothing "lux: file too long: pipe" 6 solve pipe
piped "yes lux-system 1" nothing "lux: file too long: pipe" 6 solve pipe
piped "yes TILT=NONE" nothing "lux: file too long: pipe" 6 photo pipe
piped "yes version = 1" nothing "lux: file too long: pipe" 6 run pipe
sed 's/one\.ies/pipe/' cube.toml >piped.toml
piped "in_parts one.ies" "$here/cube.run.txt" "" 0 run piped.toml --shooters 1
{ echo balanced && grep '^interval ' ledger.txt; } >balanced.txt
piped "in_parts two.txt" balanced.txt "" 0 audit pipe ledger.txt
piped "in_parts ledger.txt" balanced.txt "" 0 audit two.txt pipe

# lost NAME STATUS NOTE: compares an answer whose output was lost. muted NAME STATUS: one whose notes were.
lost() {
  : >"$room/stdout"
  note "$3"
  compare "$1" nothing "$room/note" "$2"
}
muted() {
  : >"$room/stderr"
  compare "$1" nothing nothing "$2"
}

answer solve two.txt >&- 2>stderr
lost closed-output 7 "lux: cannot write"
answer run cube.toml --shooters 1 >&- 2>stderr
lost closed-output-of-run 7 "lux: cannot write"
answer audit two.txt ledger.txt >&- 2>stderr
lost closed-output-of-audit 7 "lux: cannot write"
: >stdout
answer solve two.txt >&- 2>&-
muted closed-output-and-notes 7
answer solve two.txt 1<two.txt 2>stderr
lost output-that-is-only-read 7 "lux: cannot write"
answer solve two.txt <&- >stdout 2>stderr
compare closed-input ledger.txt nothing 0
answer >stdout 2>&-
muted closed-notes-without-words 3
answer solve none.txt >stdout 2>&-
muted closed-notes-of-a-missing-file 6
answer solve /dev/null >stdout 2>&-
muted closed-notes-of-a-fault 4
if [ -c /dev/full ]; then
  answer solve two.txt >/dev/full 2>stderr
  lost full-output 7 "lux: cannot write"
  answer gen 0 >/dev/full 2>stderr
  lost full-output-of-gen 7 "lux: cannot write"
  : >stdout
  answer solve two.txt >/dev/full 2>&1
  muted full-output-and-notes 7
  answer >stdout 2>/dev/full
  muted full-notes-without-words 3
  answer solve none.txt >stdout 2>/dev/full
  muted full-notes-of-a-missing-file 6
  answer solve /dev/null >stdout 2>/dev/full
  muted full-notes-of-a-fault 4
fi

# A pipe whose reader has gone before anything is written, and one whose reader goes after the first byte, where the
# pipe can't hold the rest of the report.
rm -f pipe
mkfifo pipe
exec {reader}<>pipe {writer}>pipe {reader}<&-
answer solve two.txt >&"$writer" 2>stderr
exec {writer}>&-
lost output-without-a-reader 7 "lux: cannot write"
cd "$here/.." || exit 1
answer run examples/hall.toml --shooters 1 2>"$room/stderr" | head -c 1 >"$room/stdout"
printf l >"$room/first"
note "lux: cannot write"
compare output-whose-reader-goes "$room/first" "$room/note" 7
cd "$here" || exit 1
