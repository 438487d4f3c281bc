#!/usr/bin/env bash
# Draws the points of a check as a plan in false colours: the low ends of their intervals and, beside them, the high ends.
#
#   examples/plan.sh [--plain | --screen | --png FILE] PROJECT REPORT [CHECK]
#
# PROJECT is the project's file, and REPORT what `lux run PROJECT` wrote, with --csv or without; `-` reads it from the
# standard input. CHECK is the name of a check, the first one if there is none.
#
# --plain draws in characters and needs bash and awk alone; --screen lets gnuplot draw where it draws by itself, a window
# mostly, and --png into a file. Without an option it is --screen where there are gnuplot and a display, else --plain.
#
# The script looks for tables [[check]] with a key a line, as the examples have them. It ends with status 1 and one line
# that says why where nothing is drawn.
set -o pipefail
export LC_ALL=C

refuse() {
  printf 'plan: %s\n' "$1" >&2
  exit 1
}

usage='usage: plan.sh [--plain | --screen | --png FILE] PROJECT REPORT [CHECK]'
way='' picture=''
case ${1-} in
  --plain | --screen)
    way=${1#--}
    shift
    ;;
  --png)
    way=png picture=${2-}
    [ -n "$picture" ] || refuse "$usage"
    shift 2
    ;;
  --*) refuse "$usage" ;;
esac
if [ $# -lt 2 ] || [ $# -gt 3 ]; then refuse "$usage"; fi
project=$1 report=$2
export PLAN_CHECK=${3-}
if [ -z "$way" ]; then
  way=plain
  if command -v gnuplot >/dev/null && [ -n "${DISPLAY-}${WAYLAND_DISPLAY-}" ]; then way=screen; fi
elif [ "$way" != plain ] && ! command -v gnuplot >/dev/null; then
  refuse "there is no gnuplot for --$way; --plain draws without it"
fi
if [ ! -f "$project" ] || [ ! -r "$project" ]; then refuse "cannot read $project"; fi
if [ "$report" != - ]; then
  if [ -d "$report" ] || [ ! -r "$report" ]; then refuse "cannot read $report"; fi
  exec <"$report"
fi

# The check's number among all and its grid: number, name, both ends along x and y, the height, points along x and y.
grid=$(awk '
  function fault(text) { print text; faulty = 1; exit 1 }
  function numeral(text) {
    gsub(/[ \t]/, "", text)
    if (text !~ /^[+]?[0-9]+(_[0-9]+)*$/) fault("check " name ": its key " key " is not written as in the examples")
    gsub(/[+_]/, "", text)
    return text + 0
  }
  function two(text, ends) {
    if (text !~ /^\[.*\]$/) numeral("")
    text = substr(text, 2, length(text) - 2)
    sub(/,[ \t]*$/, "", text)
    if (split(text, ends, ",") != 2) numeral("")
    return numeral(ends[1]) " " numeral(ends[2])
  }
  function close_table() {
    if (!inside) return
    if (!("name" in value)) fault("check " count - 1 " of the project has no name")
    name = value["name"]
    if (name !~ /^["\047][A-Za-z0-9_-]+["\047]$/) fault("check " count - 1 ": its name is not written as in the examples")
    name = substr(name, 2, length(name) - 2)
    if (found == "" && (ENVIRON["PLAN_CHECK"] == "" || ENVIRON["PLAN_CHECK"] == name)) {
      found = count - 1 " " name
      split("x y z points", keys, " ")
      for (k = 1; k <= 4; k++) {
        key = keys[k]
        if (!(key in value)) fault("check " name ": there is no key " key)
        found = found " " (key == "z" ? numeral(value[key]) : two(value[key]))
      }
    }
    split("", value)
    inside = 0
  }
  { sub(/\r$/, "") }
  # No value that is read here has a # in it.
  { sub(/#.*/, ""); sub(/^[ \t]+/, ""); sub(/[ \t]+$/, "") }
  waiting != "" { $0 = waiting " " $0; waiting = "" }
  /^\[/ {
    close_table()
    if ($0 ~ /^\[\[[ \t]*check[ \t]*\]\]$/) { inside = 1; count++ }
    next
  }
  inside && (at = index($0, "=")) {
    key = substr($0, 1, at - 1)
    text = substr($0, at + 1)
    gsub(/[ \t"\047]/, "", key)
    sub(/^[ \t]+/, "", text)
    if (text ~ /^\[/ && text !~ /\]$/) { waiting = $0; next }
    value[key] = text
  }
  END {
    if (faulty) exit 1
    close_table()
    if (!count) fault("the project has no table [[check]]")
    if (found == "") fault("the project has no check " ENVIRON["PLAN_CHECK"])
    print found
  }' <"$project") || refuse "$grid"
read -r number name left right bottom top height columns rows <<<"$grid"

# The ends of the points, one point a line, in nanolux.
points=$(awk -v number="$number" -v name="$name" -v expected=$((columns * rows)) '
  function fault(text) { print text; faulty = 1; exit 1 }
  function take(place, low, high) {
    if (place != taken || low !~ /^[0-9]+$/ || high !~ /^[0-9]+$/) fault("the report is not whole at point " place)
    taken++
    if (taken <= expected) print low, high
  }
  { sub(/\r$/, "") }
  NR == 1 {
    if ($0 == "row,name,index,a,b,c,verdict") FS = ","
    else if ($0 != "lux report 1") fault("this is no report of lux run")
    next
  }
  # The rows of a check begin with its average in a table and with its name in lines.
  FS == "," && $1 == "average" || FS != "," && $1 == "check" {
    inside = count++ == number
    if (inside) other = $2
  }
  inside && $1 == "point" && FS == "," { take($3, $4, $5) }
  inside && $1 == "point" && FS != "," { take($2, $4, $6) }
  $1 == "status" { whole = 1 }
  END {
    if (faulty) exit 1
    if (!NR) fault("the report is empty")
    if (!count && whole) fault("the report has no checks")
    if (!whole) fault("the report has no status: it is not whole")
    if (count <= number) fault("the report is of another project: it has no check " name)
    if (other != name) fault("the report is of another project: check " number " is " other " there, not " name)
    if (taken != expected) fault("the report is of another project: " name " has " taken + 0 " points, not " expected)
  }') || refuse "${points##*$'\n'}"

title="check $name, $columns by $rows points at z = $height mm, lux of the new installation"
if [ "$way" = plain ]; then
  awk -v title="$title" -v left="$left" -v right="$right" -v bottom="$bottom" -v top="$top" \
    -v columns="$columns" -v rows="$rows" '
    function middle(from, to, place, parts) { return int(from + (2 * place + 1) * (to - from) / (2 * parts)) }
    function blanks(number) { return sprintf("%" number "s", "") }
    function centred(text, room,   before) {
      before = int((room - length(text)) / 2)
      return blanks(before) text blanks(room - length(text) - before)
    }
    function band(row, ends,   column, line, sign, copy) {
      line = ""
      for (column = 0; column < columns; column++) {
        sign = substr(ramp, int((ends[row * columns + column] - start) / step) + 1, 1)
        for (copy = 0; copy < wide; copy++) line = line sign
      }
      return line
    }
    { low[NR - 1] = $1 + 0; high[NR - 1] = $2 + 0 }
    NR == 1 || $1 + 0 < least { least = $1 + 0 }
    NR == 1 || $2 + 0 > most { most = $2 + 0 }
    END {
      ramp = ".:-=+*#@"
      # The least step of 1, 2 or 5 with noughts, from a thousandth of a lux on, with which the ramp suffices.
      split("1 2 5", factor, " ")
      turn = 1
      power = 1e6
      step = power
      while (int(most / step) - int(least / step) >= length(ramp)) {
        if (++turn > 3) { turn = 1; power *= 10 }
        step = factor[turn] * power
      }
      start = int(least / step) * step
      wide = columns <= 32 ? 2 : 1
      while (wide * columns < 18) wide += 2
      high_rows = wide < 2 ? 1 : int(wide / 2)
      while (high_rows > 1 && high_rows * rows > 24) high_rows--
      room = wide * columns
      high_title = centred("high ends", room)
      sub(/ +$/, "", high_title)
      print title
      print ""
      printf "%8s %s    %s\n", "y, mm", centred("low ends", room), high_title
      for (row = rows - 1; row >= 0; row--)
        for (copy = 0; copy < high_rows; copy++) {
          label = copy == int((high_rows - 1) / 2) ? middle(bottom, top, row, rows) : ""
          printf "%8s |%s|  |%s|\n", label, band(row, low), band(row, high)
        }
      first = middle(left, right, 0, columns)
      last = columns > 1 ? middle(left, right, columns - 1, columns) : ""
      axis = first blanks(room - length(first) - length(last)) last
      line = sprintf("%8s  %s    %s", "x, mm", axis, axis)
      sub(/ +$/, "", line)
      print line "\n"
      digits = step >= 1e9 ? 0 : step >= 1e8 ? 1 : step >= 1e7 ? 2 : 3
      lux = "%." digits "f"
      for (level = int((most - start) / step); level >= 0; level--)
        printf "%8s  " lux " to below " lux " lux\n", substr(ramp, level + 1, 1), (start + level * step) / 1e9,
          (start + (level + 1) * step) / 1e9
    }' <<<"$points"
  exit
fi

# Boxes, and no image: an image has at least two points along both sides.
boxes=$(awk -v left="$left" -v right="$right" -v bottom="$bottom" -v top="$top" -v columns="$columns" -v rows="$rows" '
  {
    column = (NR - 1) % columns
    row = int((NR - 1) / columns)
    wide = (right - left) / columns
    deep = (top - bottom) / rows
    x = left + column * wide
    y = bottom + row * deep
    print x + wide / 2, y + deep / 2, x, x + wide, y, y + deep, $1 / 1e9, $2 / 1e9
  }' <<<"$points")
range=$(awk '
  NR == 1 || $1 + 0 < least { least = $1 + 0 }
  NR == 1 || $2 + 0 > most { most = $2 + 0 }
  END {
    if (most - least < 1e6) most = least + 1e6
    printf "[%.6f:%.6f]\n", least / 1e9, most / 1e9
  }' <<<"$points")
terminal='if (GPVAL_TERM eq "unknown") exit status 1'
if [ "$way" = png ]; then
  { : >"$picture"; } 2>/dev/null || refuse "cannot write $picture"
  exec >"$picture"
  terminal='if (strstrt(GPVAL_TERMINALS, "pngcairo")) set terminal pngcairo size 1200,520; else set terminal png size 1200,520'
fi
{
  printf '%s\n' "$terminal"
  printf '%s\n' "\$boxes << END" "$boxes" END
  cat <<END
set multiplot layout 1,2 title "$title" noenhanced
set size ratio -1
set xrange [$left:$right]
set yrange [$bottom:$top]
set cbrange $range
set xlabel "x, mm"
set ylabel "y, mm"
set style fill solid 1 noborder
unset key
set title "low ends"
plot \$boxes using 1:2:3:4:5:6:7 with boxxyerror fillcolor palette
set title "high ends"
plot \$boxes using 1:2:3:4:5:6:8 with boxxyerror fillcolor palette
unset multiplot
END
} 2>/dev/null | gnuplot -persist 2>/dev/null || refuse "gnuplot has drawn nothing for --$way; --plain draws without it"
