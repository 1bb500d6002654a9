# For ../hall: builds the command, and lists what it is made of.
set -euo pipefail
CDPATH='' cd -- "$(dirname "${BASH_SOURCE[0]}")/.."
if ! . port/archive.sh; then
  echo "there is no $archive, and no rt to make it or MTB_STATICLIB names its folder"
  exit 1
fi
if ! command -v cargo >/dev/null; then
  echo "no cargo to build the original and the command"
  exit 1
fi
[ -x target/speed/hall ] || echo "building the original and the command"
# What is changed while this builds is newer than the list. Of an archive that somebody names there is none:
# the next call is not to take what is made of it for the port.
rm -f target/speed/hall.sources
sources=$(find -H Cargo.toml Cargo.lock {original,naive,trials,port,brackets}/{Cargo.toml,src} port/{archive.sh,build.rs} brackets/build.sh \
  ../crates.txt $(crates_below | sed 's,^,../crates/,') "$archive" $(command -v rt || true) \( -name must-fail -o -name out \) -prune -o -printf '%C@ %s %i %p\n')
cargo build --profile speed --offline --locked --quiet --package brackets
[ -n "${MTB_STATICLIB:-}" ] || printf '%s\n' "$sources" >target/speed/hall.sources
