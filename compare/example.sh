#!/usr/bin/env bash
# Builds the examples as a caller would, with the archive that is named, and holds what
# they print to what is known: in C and C++ with every warning an error, in Rust, and in
# Python with a shared library of the archive. Says in a line what is left out.
set -euo pipefail
archive=$(realpath "$1")
cd "$(dirname "${BASH_SOURCE[0]}")/.."
room=$(mktemp -d)
trap 'rm -rf "$room"' EXIT

at_hand() { # EXAMPLE PROGRAM...
  local example=$1 program
  shift
  [ -f "$example" ] || { echo "$example: left out, it is not there"; return 1; }
  for program in "$@"; do
    command -v "$program" >/dev/null 2>&1 || { echo "$example: left out, no $program at hand"; return 1; }
  done
}

# The texts of stacksteps, for every input that it reports on, and those at a longer reach.
report_prints_the_texts() { # NAME
  local input text reach count=0 farther=0
  for input in crates/stacksteps/stdin compare/vectors/data/stacksteps/*.stdin; do
    text=${input%stdin}stdout
    grep -q '^frames ' "$text" || continue
    report_prints "$1" 1 "$input" "$text"
    count=$((count + 1))
  done
  for text in compare/vectors/data/stacksteps/*.reach_*.stdout; do
    reach=${text##*.reach_}
    report_prints "$1" "${reach%.stdout}" "${text%.reach_*}.stdin" "$text"
    farther=$((farther + 1))
  done
  echo "$1: prints the text of stacksteps for $count inputs and $farther texts at a longer reach, byte for byte, also of PGM files"
}

commented=$'\n# a bracket\n'

report_prints() { # NAME REACH INPUT TEXT
  "$room/report" 64 64 "$2" <"$3" | cmp - "$4" || { echo "$1: prints another text than $4"; exit 1; }
  images_of "$3" "$commented" | "$room/report" "$2" | cmp - "$4" || { echo "$1: prints another text than $4 of a PGM file"; exit 1; }
}

# The frames of an input as PGM images, with something between P5 and the width.
images_of() { # INPUT GAP
  local frame frames
  frames=$(($(wc -c <"$1") / 4096))
  for ((frame = 0; frame < frames; frame++)); do
    printf 'P5%s64 64\n255\n' "$2"
    dd if="$1" bs=4096 skip="$frame" count=1 status=none
  done
}

# A file that cannot be read: which image, and the number of its refusal.
report_refuses() { # NAME
  local said status=0
  said=$(printf 'P5 1 1 255 aP5 1 1 254 b' | "$room/report" 1 2>&1) || status=$?
  [ "$status $said" = "1 the image at byte 12 cannot be read
refused 14" ] || { echo "$1: says $status $said of a file that cannot be read"; exit 1; }
}

# Files of the same frames have the same bytes once saved, whatever their headers have; and what is saved already stays.
saves_in_one_form() { # NAME
  local input file count=0 kept=0
  for input in compare/vectors/data/stacksteps/*.stdin; do
    [ "$(($(wc -c <"$input") % 4096))" -eq 0 ] || continue
    images_of "$input" "$commented" | "$room/saved" | cmp - <(images_of "$input" $'\n') || { echo "$1: saves the frames of $input in another form"; exit 1; }
    count=$((count + 1))
  done
  for file in compare/vectors/data/netpbm/*.pgm; do
    "$room/saved" <"$file" | cmp - "$file" || { echo "$1: saves $file, which Netpbm wrote, in another form"; exit 1; }
    kept=$((kept + 1))
  done
  echo "$1: saves the frames of $count files without their comments, and $kept files of Netpbm as they are"
}

# A file with an image that cannot be read: the images before it, which it is, and the number of its refusal.
saves_up_to() { # NAME
  local said status=0
  said=$(printf 'P5 1 1 255 aP5 1 1 255' | "$room/saved" 2>&1 >"$room/front") || status=$?
  [ "$status $said" = '1 the image at byte 12 cannot be read: refused 13' ] || { echo "$1: says $status $said of a file that cannot be read"; exit 1; }
  printf 'P5\n1 1\n255\na' | cmp - "$room/front" || { echo "$1: does not save what stands before an image that cannot be read"; exit 1; }
}

# Each plane's size, and its steps, which are half of the mosaics': of three of 65 by 63 that are cut out of one board, the second lies 6 columns to
# the right of the first and 4 rows above it, the third 2 to the left and 6 below.
prints_the_steps() { # NAME
  local steps=$'1 3 -2\n2 -1 3'
  "$room/planes" <compare/vectors/data/mosaics/board.pgm | cmp - <(
    printf 'even rows, even columns: 33 by 32\n%s\n' "$steps"
    printf 'even rows, odd columns: 32 by 32\n%s\n' "$steps"
    printf 'odd rows, even columns: 33 by 31\n%s\n' "$steps"
    printf 'odd rows, odd columns: 32 by 31\n%s\n' "$steps"
  ) || { echo "$1: prints other planes or steps"; exit 1; }
  echo "$1: prints the sizes and steps of the planes of three mosaics of a board, byte for byte"
}

# A file with an image that cannot be read, and one with an image of another size.
planes_refuses() { # NAME
  local said status=0
  said=$(printf 'P5 1 1 255 aP5 1 1 255' | "$room/planes" 2>&1) || status=$?
  [ "$status $said" = '1 the image at byte 12: refused 13' ] || { echo "$1: says $status $said of a file that cannot be read"; exit 1; }
  status=0
  said=$(printf 'P5 1 1 255 aP5 2 1 255 bc' | "$room/planes" 2>&1) || status=$?
  [ "$status $said" = '1 the image at byte 12 is of another size' ] || { echo "$1: says $status $said of two sizes"; exit 1; }
}

# Calibration card D.
prints_the_cut() { # NAME COMMAND...
  local name=$1 said
  shift
  said=$("$@")
  [ "$said" = 'cut 11' ] || { echo "$name: prints $said in place of cut 11"; exit 1; }
  echo "$name: prints $said, as card D has it"
}

flags=(-Wall -Wextra -pedantic -Werror -I crates/mtb_c)
if at_hand examples/report.c cc; then
  cc -std=c11 "${flags[@]}" examples/report.c "$archive" -o "$room/report"
  report_prints_the_texts 'examples/report.c as C'
  report_refuses 'examples/report.c as C'
fi
if at_hand examples/report.c c++; then
  c++ -x c++ -std=c++17 "${flags[@]}" examples/report.c -x none "$archive" -o "$room/report"
  report_prints_the_texts 'examples/report.c as C++'
fi
if at_hand examples/saved.c cc; then
  cc -std=c11 "${flags[@]}" examples/saved.c "$archive" -o "$room/saved"
  saves_in_one_form 'examples/saved.c as C'
  saves_up_to 'examples/saved.c as C'
fi
if at_hand examples/saved.c c++; then
  c++ -x c++ -std=c++17 "${flags[@]}" examples/saved.c -x none "$archive" -o "$room/saved"
  saves_in_one_form 'examples/saved.c as C++'
fi
if at_hand examples/planes.c cc; then
  cc -std=c11 "${flags[@]}" examples/planes.c "$archive" -o "$room/planes"
  prints_the_steps 'examples/planes.c as C'
  planes_refuses 'examples/planes.c as C'
fi
if at_hand examples/planes.c c++; then
  c++ -x c++ -std=c++17 "${flags[@]}" examples/planes.c -x none "$archive" -o "$room/planes"
  prints_the_steps 'examples/planes.c as C++'
fi
if at_hand examples/cut.rs rustc; then
  rustc examples/cut.rs -L "${archive%/*}" -l static=mtb_c -o "$room/cut"
  prints_the_cut examples/cut.rs "$room/cut"
fi
if at_hand examples/cut.py cc python3; then
  cc -shared -Wl,--whole-archive "$archive" -Wl,--no-whole-archive -o "$room/libmtb.so"
  prints_the_cut examples/cut.py python3 examples/cut.py "$room/libmtb.so"
fi
