#!/usr/bin/env bash
# Writes the ledger text of a report that `lux run` wrote in lines: its ledger, and the intervals of its patches.
#
#     ledger_text.sh [REPORT]
#
# Without a word it reads the report from standard input. Numbers are copied as they are written, and nothing is
# computed or checked: that is for `lux audit` to do. Exit status: 0, and 1 where the text is no whole report in lines.
[ $# -le 1 ] || { echo "ledger: usage: ledger_text.sh [REPORT]" >&2 && exit 1; }
exec awk '
  NR == 1 && $0 != "lux report 1" { exit }
  NR == 1 { print "lux-ledger 1" }
  $1 == "patches" || $1 == "wins" || $1 == "parts" { print }
  $1 == "patch" { print $1, $2, $3, $4, $5, $6, $7, $8, $9, $10 }
  $1 == "patch" { intervals = intervals "interval " $2 " " $12 " " $14 "\n" }
  $1 == "status" { whole = 1 }
  END {
    printf "%s", intervals
    if (!whole) {
      print "ledger: no whole report in lines" >"/dev/stderr"
      exit 1
    }
  }
' "$@"
