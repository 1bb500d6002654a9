# For run, speed and choose, from their folder: succeeds where the port's archive is at hand.
# Where rt is, and MTB_STATICLIB names no other archive, it is made, unless it stands
# already and is the one of these sources and this toolchain.
archive=${MTB_STATICLIB:-../crates/mtb_c/out}/libmtb_c.a

# mtb_c and what it stands on.
crates_below() {
  awk -F: '
    { split($1, named_as, " "); on[named_as[1]] = $2 }
    function name(crate,  of, n, i) {
      if (!(crate in on) || crate in named) return
      named[crate]
      print crate
      n = split(on[crate], of, " ")
      for (i = 1; i <= n; i++) name(of[i])
    }
    END { name("mtb_c") }' ../crates.txt
}

# A sum of all that an archive is made of. Contents are summed, as a checkout may bring
# older files with newer dates.
sum_of_sources() {
  {
    rt version
    cat ../crates.txt
    crates_below | while read -r crate; do
      find "../crates/$crate" -name out -prune -o -type f \( -path '*/src/*' -o -path '*/specs/*' -o -path '*/proofs/*' \) -print0
    done | LC_ALL=C sort -z | xargs -0 sha256sum
  } | sha256sum
}

if [ -z "${MTB_STATICLIB:-}" ] && command -v rt >/dev/null 2>&1; then
  sources=$(sum_of_sources)
  stamp() { echo "$sources"; sha256sum <"$archive"; }
  if ! [ -f "$archive" ] || [ "$(stamp)" != "$(cat "$archive.stamp" 2>/dev/null)" ]; then
    echo "proving mtb_c and what it stands on for the archive: some 4 minutes from nothing on four cores, under one where they are proved"
    if ! said=$(cd ../crates/mtb_c && rt lib 2>&1); then
      printf '%s\n' "$said"
      exit 1
    fi
    stamp >"$archive.stamp"
  fi
fi
[ -f "$archive" ]
