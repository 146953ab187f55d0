# Where tools/prove and tools/try_same have `rt ci` work: on a copy of the program's crates, in a folder of its own among the temporary
# files. To be read by these scripts, which have set `top`, `began`, `log`, `note`, and the function `refuse`.
#
# The copy can't stand in out/: a gate that runs in the repository refuses sources there, and a second crates.txt. The file
# `mark` in its folder says whose it is, and the file `note` names the folder. So the next run removes it, should this one be
# killed outright.
COPY_MARK='a copy of tools/prove'
declare -A below=() seen=()
# The program's crates, each behind those that it stands on; the folder, and the copy in it.
order=()
folder=''
copy=''
# How many MB `rt ci` wants to be free, and how many must be for it to keep what it passed.
ROOM=3000
ROOM_TO_KEEP=5000

# Reads which crates each crate of the repository stands on. A line may have words behind the name, before the colon.
read_crates() {
  local name rest
  while IFS=: read -r name rest; do
    name="${name%%[ #]*}"
    if [ -n "$name" ]; then below[$name]="$rest"; fi
  done <"$top/crates.txt"
}

# Puts the crate behind those that it stands on.
put_in_order() {
  local other
  if [ -n "${seen[$1]:-}" ]; then return; fi
  seen[$1]=yes
  for other in ${below[$1]}; do
    if [ -n "${below[$other]+there}" ]; then put_in_order "$other"; fi
  done
  order+=("$1")
}

# Finds which crates the program is made of.
find_order() {
  read_crates
  [ -n "${below[ipanema]+there}" ] || refuse "crates.txt has no ipanema"
  put_in_order ipanema
}

# Writes how many MB are free in that folder, if it can be told.
free_in() {
  df --output=avail -m -- "$1" 2>/dev/null | tail -n 1 | tr -d ' '
}

# Whether so many MB are free in that folder, or it can't be told.
has_room() {
  local free
  free="$(free_in "$1")" || return 0
  [[ ! "$free" =~ ^[0-9]+$ ]] || [ "$free" -ge "$2" ]
}

# Refuses a folder with less room than a run of `rt` wants.
want_room() {
  has_room "$1" "$ROOM" || refuse "in $1 $(free_in "$1") MB are free, and some $ROOM are needed${2:-}"
}

# Whether `rt ci` can keep what it passed. It does so in a folder beside the toolchain that must be its user's own.
can_keep() {
  local kit
  kit="$(readlink -f -- "$(command -v rt)")"
  kit="${kit%/bin/*}"
  store="${kit%/*}/rattle-kept"
  if [ -e "$store" ] || [ -L "$store" ]; then
    [ -d "$store" ] && [ ! -L "$store" ] && [ -O "$store" ] && [ -w "$store" ] && has_room "$store" "$ROOM_TO_KEEP"
  else
    [ -w "${store%/*}" ] && has_room "${store%/*}" "$ROOM_TO_KEEP"
  fi
}

# Removes the folder of a copy, while what has just been killed may still write there. Only one with the mark is removed.
remove_copy() {
  local tries mark=''
  if [ -z "$1" ] || [ -L "$1" ] || [ -L "$1/mark" ]; then return; fi
  { read -r mark <"$1/mark"; } 2>/dev/null || true
  [ "$mark" = "$COPY_MARK" ] || return 0
  for ((tries = 0; tries < 40; tries++)); do
    rm -rf -- "$1"/[!m]* 2>/dev/null && break
    sleep 0.1
  done
  rm -rf -- "$1"
}

# Removes the copy of this run.
clear_away() {
  if [ -z "$folder" ]; then return; fi
  cd -- "$top" || return
  remove_copy "$folder"
  rm -f -- "$note"
}

# Copies the crates without their wrong bodies and what was made of them, and the lines of crates.txt that name them.
copy_crates() {
  local crate part
  mkdir -- "$copy" "$copy/.git" "$copy/crates"
  for crate in "${order[@]}"; do
    mkdir -- "$copy/crates/$crate"
    for part in "$top/crates/$crate"/*; do
      case "${part##*/}" in out | must-fail) ;; *) cp -R -- "$part" "$copy/crates/$crate/" ;; esac
    done
  done
  cp -- "$top/HANDLES" "$copy"
  awk -v names="${order[*]}" 'BEGIN { split(names, list, " "); for (n in list) is_there[list[n]] = 1 }
    { name = $0; sub(/[ :#].*/, "", name) } name in is_there' "$top/crates.txt" >"$copy/crates.txt"
}

# Whether a source was changed since the script began. A folder's own time tells of a file that is gone.
has_changed() (
  cd -- "$top" || return 0
  newer="$(find crates.txt HANDLES crates/*/src crates/*/specs crates/*/proofs -newerct "@${began/,/.}" -print -quit 2>/dev/null)"
  [ -n "$newer" ]
)

# Lays out the copy, of the sources that have the checksum.
make_copy() {
  local place="${TMPDIR:-/tmp}" left=''
  { read -r left <"$note"; } 2>/dev/null || true
  remove_copy "$left"
  want_room "$place" '; TMPDIR may name a folder with more'
  folder="$(mktemp -d -- "$place/ipanema-prove.XXXXXX" 2>/dev/null)" || refuse "nothing can be written to $place"
  copy="$folder/repo"
  echo "$COPY_MARK" >"$folder/mark"
  echo "$folder" >"$note"
  copy_crates 2>>"$log" || refuse "the crates couldn't be copied to $place; see $log"
  ! has_changed || refuse "a source has changed as it was copied; call it again" 1
}
