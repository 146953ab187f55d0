# Which program ./ipanema runs, and where it is kept. To be read by a script of bash that has set `top`, the
# repository's folder.
#
# A program is kept by the checksum SUM of the sources that it was made of: as out/proved/SUM/ipanema, or as
# out/unproved/SUM/ipanema. So one that was made of other sources isn't found, whatever the times of files say.

# Writes the checksum of all that a build reads: names and bytes of crates.txt, HANDLES, and the sources of each crate.
sum_of_sources() (
  set -o pipefail
  shopt -s nullglob
  export LC_ALL=C
  cd -- "$top" 2>/dev/null || exit 1
  set +f
  {
    printf '%s\0' crates.txt HANDLES
    find crates/*/src crates/*/specs crates/*/proofs \( -name '*.rt' -o -name '*.antt' \) ! -type d -print0
  } | sort -z | xargs -0 sha256sum -b -- 2>/dev/null | sha256sum | cut -c 1-64
)

# Writes the file of the program of that kind, `proved` or `unproved`, that was made of the sources with that checksum.
place_of() {
  printf '%s/out/%s/%s/ipanema' "$top" "$1" "$2"
}

# Writes the checksum of a program.
sum_of_program() {
  sha256sum <"$1" | cut -c 1-64
}

# Writes the file of the program that ./ipanema runs, if there is one: the proved one, or else the other.
program_of() {
  local sum kind place
  sum="$(sum_of_sources)" || return
  for kind in proved unproved; do
    place="$(place_of "$kind" "$sum")"
    if [ "$("$place" 2>/dev/null </dev/null)" = 'bad words' ]; then printf '%s' "$place"; return; fi
  done
  return 1
}

# Keeps that program as the one of that kind and checksum, for all users to run. It is there whole or not at all.
keep_as() {
  local file=$1 place
  place="$(place_of "$2" "$3")"
  (umask 022 && mkdir -p -- "${place%/*}" && install -m 755 -- "$file" "$place.$$" && sync -- "$place.$$" &&
    mv -f -T -- "$place.$$" "$place") 2>/dev/null
}
