#!/usr/bin/env bash
# Tries the command hall as a user calls it, and, where Debian's packages netpbm and opencv-doc are at hand,
# on photographs: windows cut out of one at known places and exposed otherwise, and two of one scene. Says in a
# line what was held, or what is left out.
set -euo pipefail
CDPATH='' cd -- "$(dirname "${BASH_SOURCE[0]}")/.."
room=$(mktemp -d)
trap 'rm -rf "$room"' EXIT
fail() { echo "hall: $1"; exit 1; }

bracket=$PWD/vectors/data/brackets/board.pgm
without_times() { grep -v '^time '; }

# From anywhere, by any path, the same; and where nothing has changed, with no tool at hand but the shell.
called_from_anywhere() {
  local here=$PWD
  ./hall "$bracket" --plain | without_times >"$room/said"
  grep -q '^agree port original naive$' "$room/said" || fail "does not agree on $bracket"
  (cd / && "$here/hall" "$bracket" --plain) | without_times | cmp - "$room/said" || fail "says something else from another folder"
  (cd "$room" && bash "$here/hall" "$bracket" --plain) | without_times | cmp - "$room/said" || fail "says something else by bash"
  ln -s "$here/hall" "$room/linked"
  "$room/linked" "$bracket" --plain | without_times | cmp - "$room/said" || fail "says something else by a link"
  env PATH=/nowhere /bin/sh ./hall "$bracket" --plain | without_times | cmp - "$room/said" || fail "builds anew though nothing has changed"
}

# A source that was touched is seen, and so is a list that is not there or has something else; then it is built and goes on.
is_current() { HALL_SOURCES=$1 HALL_COMMAND=/bin/false target/speed/hall --help >/dev/null; }
built_anew() {
  local list=target/speed/hall.sources change
  for change in touched moved other; do
    is_current "$list" || fail "is to be built anew though nothing has changed"
    case $change in
    touched) chmod u+r trials/src/lib.rs ;;
    moved) mv "$list" "$room/list" ;;
    other) echo 'anything else' >>"$list" ;;
    esac
    ! is_current "$list" || fail "does not see that it is to be built anew: $change"
    ./hall "$bracket" --plain | without_times | cmp - "$room/said" || fail "is not built anew: $change"
  done
  echo "hall: says the same from any folder, by bash and by a link, and is built anew where a source has changed"
}

# An archive whose align_stack moves frame 1 by five columns more; else a copy, where there is no tool to make it.
wrong_archive() {
  local tool
  cp ../crates/mtb_c/out/libmtb_c.a "$room"
  for tool in cc ar objcopy; do command -v "$tool" >/dev/null || return 1; done
  objcopy --redefine-sym mtb_align_stack=true_align_stack "$room/libmtb_c.a"
  cat >"$room/wrong.c" <<'END'
#include "mtb.h"
extern __typeof__(mtb_align_stack) true_align_stack;
uint32_t mtb_align_stack(const size_t *widths, size_t widths_length, const size_t *heights, size_t heights_length,
                         const uint8_t *percentiles, size_t percentiles_length,
                         const uint8_t *samples, size_t samples_length, size_t reference,
                         uint32_t bits, uint8_t tolerance, bool subsampled,
                         int32_t *shifts, size_t shifts_length,
                         uint8_t *bytes, size_t bytes_length, uint64_t *words, size_t words_length,
                         size_t values[5]) {
    uint32_t status = true_align_stack(widths, widths_length, heights, heights_length, percentiles, percentiles_length,
                                       samples, samples_length, reference, bits, tolerance, subsampled,
                                       shifts, shifts_length, bytes, bytes_length, words, words_length, values);
    if (status == MTB_ACCEPTED) shifts[2] += 5;
    return status;
}
END
  cc -I ../crates/mtb_c -c "$room/wrong.c" -o "$room/wrong.o"
  ar r "$room/libmtb_c.a" "$room/wrong.o"
}

# A port that is wrong is told, and what is made of an archive that somebody names is not taken for the port afterwards.
archive_named() {
  local wanted status=0
  if wrong_archive 2>/dev/null; then
    wanted='1 differ frame 1 differs: port 7,3; original 2,3; naive 2,3; report 2,3'
  else
    echo "hall with a wrong port: left out, no cc, ar or objcopy at hand"
    wanted='0 '
  fi
  MTB_STATICLIB=$room ./hall "$bracket" --plain >"$room/named" || status=$?
  [ "$status $(grep '^differ ' "$room/named" || true)" = "$wanted" ] || fail "says $status $(cat "$room/named") of another archive"
  ! is_current target/speed/hall.sources || fail "takes another archive's build for the port's"
  ./hall "$bracket" --plain | without_times | cmp - "$room/said" || fail "is not built anew behind another archive"
  is_current target/speed/hall.sources || fail "is to be built anew though nothing has changed"
  echo "hall: tells where a wrong port differs, and is built anew behind another archive"
}

status_of() { # WANTED ARGUMENTS...
  local wanted=$1 status=0
  shift
  ./hall "$@" >/dev/null 2>&1 || status=$?
  [ "$status" -eq "$wanted" ] || fail "ends with $status in place of $wanted: $*"
}

# Where each window is cut out, and how it is exposed.
photographs=/usr/share/doc/opencv-doc/examples/data
places=('60 70' '63 68' '56 73' '60 77') exposures=(1 0.7 1.3 0.5)

grey() { # NAME
  case $1 in
  *.png) pngtopam -quiet "$photographs/$1" ;;
  *) jpegtopnm -quiet "$photographs/$1" ;;
  esac | ppmtopgm -quiet
}

windows_of_photographs() {
  local name frame left top x y verdict frames=0 alone=0 pictures=0
  for name in board.jpg building.jpg fruits.jpg home.jpg baboon.jpg butterfly.jpg stuff.jpg left01.jpg; do
    [ -f "$photographs/$name" ] || continue
    grey "$name" >"$room/whole.pgm"
    for frame in 0 1 2 3; do
      read -r left top <<<"${places[frame]}"
      pamcut -left "$left" -top "$top" -width 240 -height 180 "$room/whole.pgm" | pamfunc -multiplier "${exposures[frame]}"
    done >"$room/bracket.pgm"
    ./hall "$room/bracket.pgm" --plain >"$room/fields" || fail "ends with $? on windows of $name"
    grep -q '^agree port original naive$' "$room/fields" || fail "does not agree on windows of $name"
    while read -r _ frame x y verdict _; do
      read -r left top <<<"${places[frame]}"
      [ "$verdict" != reference ] || continue
      frames=$((frames + 1))
      [ "$verdict" = alone ] || continue
      alone=$((alone + 1))
      [ "$x $y" = "$((left - 60)) $((top - 70))" ] || fail "lays frame $frame of $name at $x $y"
    done < <(grep '^frame ' "$room/fields")
    pictures=$((pictures + 1))
  done
  [ "$alone" -gt $((frames / 2)) ] || fail "calls $alone of $frames frames alone"
  echo "hall: of windows of $pictures photographs all $frames shifts agree, $alone are alone and as they were cut"
}

pairs_of_photographs() {
  local one other pairs=0
  while read -r one other; do
    [ -f "$photographs/$one" ] && [ -f "$photographs/$other" ] || continue
    grey "$one" >"$room/one.pgm"
    grey "$other" >"$room/other.pgm"
    ./hall "$room/one.pgm" "$room/other.pgm" --bits 6 --reach 14 --no-naive >/dev/null || fail "does not agree on $one and $other"
    pairs=$((pairs + 1))
  done <<<'leuvenA.jpg leuvenB.jpg
aloeL.jpg aloeR.jpg
basketball1.png basketball2.png
rubberwhale1.png rubberwhale2.png
left01.jpg left02.jpg'
  echo "hall: of $pairs pairs of photographs all shifts agree"
}

called_from_anywhere
built_anew
[ -n "${MTB_STATICLIB:-}" ] || archive_named
status_of 0 "$bracket" --no-naive
status_of 2 "$room/missing.pgm"
status_of 2
if [ -d "$photographs" ] && command -v jpegtopnm pngtopam ppmtopgm pamcut pamfunc >/dev/null; then
  windows_of_photographs
  pairs_of_photographs
else
  echo "hall on photographs: left out, no netpbm or no opencv-doc at hand"
fi
