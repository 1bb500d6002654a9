# For speed --beside CHECKOUT [CALL...]: times the port of another checkout, the commit before, and
# the one of this checkout in one run. Runs and places of the code are the same for both and fixed
# before, so that neither side has more luck to draw on.
set -euo pipefail

if [ $# -eq 0 ]; then
  echo "--beside wants the root of another checkout, then calls or none for all" >&2
  exit 2
fi
for tool in cc ld ar nm; do
  if ! command -v "$tool" >/dev/null 2>&1; then
    echo "there is no $tool, which --beside needs to move the code" >&2
    exit 1
  fi
done
if ! [ -f "$1/compare/port/archive.sh" ]; then
  echo "no checkout of this repository: $1" >&2
  exit 1
fi
# Told before anything is proved.
if ! grep -qre '"--plain"' "$1/compare/port_timed/src"; then
  echo "the timing program of $1 does not know --plain, so it cannot be timed beside this one" >&2
  exit 1
fi
declare -A compare
compare[before]=$(cd "$1/compare" && pwd)
compare[after]=$(cd "$(dirname "${BASH_SOURCE[0]}")/.." && pwd)
calls=("${@:2}")
places=(0 16 32 48)
# How often both run at each place and changed over. Many short runs, as a process may be slow throughout.
rounds=4
# How often calls that have a loss are timed again, for as many rounds.
repeats=3

# The whole path of a checkout's archive.
archive_of() {
  cd "$1"
  if ! . port/archive.sh >&2; then
    echo "no archive of the port and no rt to make it: $1" >&2
    exit 1
  fi
  cd "$(dirname "$archive")"
  echo "$PWD/libmtb_c.a"
}
declare -A archive_at
archive_at[before]=$(unset MTB_STATICLIB && archive_of "${compare[before]}")
archive_at[after]=$(archive_of "${compare[after]}")

timing=$(mktemp -d)
# A job in the background does not hear an interrupt.
trap 'for job in $(jobs -pr); do kill "$job" 2>/dev/null || true; done; wait; rm -rf "$timing"' EXIT

# An archive with so many bytes before its code, from a place that a cache line begins at. The
# linker has to keep them, though nothing names them.
moved() {
  local archive=$1 place=$2 folder=$3
  mkdir "$folder"
  cc -c -x assembler -o "$folder/pad.o" - <<PAD
.section .text.a_pad, "axR", %progbits
.p2align 6
.skip 64 + $place
.section .note.GNU-stack, "", %progbits
PAD
  ld -r -o "$folder/mtb_c.o" "$folder/pad.o" --whole-archive "$archive"
  ar crs "$folder/libmtb_c.a" "$folder/mtb_c.o"
}

# The functions that a program has of an archive, each with its place within 64 bytes, so many further.
functions_in() {
  local program=$1 archive=$2 further=$3 name address
  awk 'NR == FNR { if ($2 == "T") ours[$3]; next } $3 in ours { print $3, $1 }' <(nm "$archive") <(nm "$program") |
    while read -r name address; do
      echo "$name $(((16#${address: -2} + further) % 64))"
    done
}

for side in after before; do
  for place in "${places[@]}"; do
    program=$timing/$side.$place
    moved "${archive_at[$side]}" "$place" "$timing/archive.$side.$place"
    (
      cd "${compare[$side]}"
      export MTB_STATICLIB=$timing/archive.$side.$place MTB_OPENCV=
      cargo build --profile speed --offline --locked --quiet --package port_timed --target-dir target
    )
    cp "${compare[$side]}/target/speed/port_timed" "$program"
    # An unknown call is told before the other programs are built.
    if [ "$side.$place" = after.0 ]; then
      "$program" --known "${calls[@]}"
    fi

    meant=$(functions_in "$timing/$side.0" "${archive_at[$side]}" "$place")
    if [ -z "$meant" ] || [ "$(functions_in "$program" "${archive_at[$side]}" 0)" != "$meant" ]; then
      echo "the code of the port did not move by $place bytes ($side)" >&2
      exit 1
    fi
  done
done

processors=()
if command -v taskset >/dev/null 2>&1; then
  mapfile -t processors < <(
    taskset -cp $$ | sed 's/.*: //' | tr , '\n' | while IFS=- read -r first last; do seq "$first" "${last:-$first}"; done
  )
fi
how='one after the other, and then the other way round'
if [ ${#processors[@]} -ge 2 ]; then
  how='at once, one on each of two processors, and then changed over'
fi
cat <<HEAD
Two commits in one run, the other checkout before and this one after: nanoseconds of processor
time per call of the port, within which a quarter of $((2 * rounds * ${#places[@]})) runs of the timing program on each side stay.
A call with a case below 0.98, or with a goal met before and missed now, is timed again by as many
runs on both sides, at most $repeats times, and all its runs count: a loss by chance mostly goes, and a
true one stays. A gain is not asked about. The last lines name the calls.
Both sides run $how:
they meet the same weather. $((2 * rounds)) runs each have the code 0, 16, 32 and 48 bytes after a multiple of
64, as its place alone moves calls on small frames by 2 to 5 %.
The ratio is before to after: 1.03 is 3 % faster now; \`<\` marks one below 0.98. A goal is for
original, or C peer, to port, with the original's or peer's lesser time of both sides.
HEAD

# All buffers in huge pages, where Linux and its C library have them: else a large frame's pages lie
# elsewhere in memory in each process, which moves calls on 1,920 by 1,080 by 3 to 5 %.
huge_pages=glibc.malloc.hugetlb=1:glibc.malloc.mmap_threshold=1073741824
huge_pages+=:glibc.malloc.trim_threshold=4294967296:glibc.malloc.top_pad=134217728

# Both sides' programs of a place on some calls, the first side's on the first processor.
turn() {
  local place=$1 sides=("${@:2:2}") at job run jobs=()
  for at in 0 1; do
    run=(env "GLIBC_TUNABLES=$huge_pages" "$timing/${sides[at]}.$place" --plain "${@:4}")
    if [ ${#processors[@]} -ge 2 ]; then
      taskset -c "${processors[at]}" "${run[@]}" >>"$timing/${sides[at]}" &
      jobs+=($!)
    else
      "${run[@]}" >>"$timing/${sides[at]}"
    fi
  done
  for job in "${jobs[@]}"; do
    wait "$job"
  done
}
# All rounds of some calls, or of all.
all_rounds() {
  local round place
  for ((round = 0; round < rounds; round++)); do
    for place in "${places[@]}"; do
      turn "$place" before after "$@"
      turn "$place" after before "$@"
    done
  done
}

all_rounds "${calls[@]}"
timed_again=()
for ((repeat = 1; repeat <= repeats; repeat++)); do
  with_loss=$("$timing/after.0" --again "$timing/before" "$timing/after")
  if [ -n "$with_loss" ]; then
    mapfile -t again <<<"$with_loss"
    all_rounds "${again[@]}"
  fi
  timed_again+=("timed again, $repeat: ${with_loss:-none}")
done
"$timing/after.0" --beside "$timing/before" "$timing/after"
printf '%s\n' "${timed_again[@]//$'\n'/, }"
