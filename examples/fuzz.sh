#!/usr/bin/env bash
# Runs the program on damaged files for a while, and sees that it ends as it must, whatever the files are.
#
#   fuzz.sh SECONDS [SEED] [--jobs N] [--kinds]
#
# fuzz.py beside it says what is run, what is asked of each run, and what is printed. SEED is a number, and 1 where there
# is none: the same seed makes the same runs, as many of them as there is time for. One run is made at a time, or N with
# `--jobs N`. `--kinds` counts the notes by their kind, too.
#
# LUX names another program than the one that is built here. Exit status: 0 where all runs ended as they must, 1 where
# one did not, 2 where nothing could be run by these words, and 77 where there is no python3.
if ! python3 -c 'import dataclasses, resource' 2>/dev/null; then
  echo "fuzz: skipped, as there is no python3"
  exit 77
fi
. "$(dirname "$0")/compare.sh"
python3 "$here/fuzz.py" "$program" "$@"
