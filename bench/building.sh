# To be sourced by the scripts beside this: it lays out a repository in a folder of its own, with crates as they lie here and
# programs of the benches. Their files end in `.source` here, since the gate stops at a file of Rattle that it doesn't read.
benches="$(cd "$(dirname "${BASH_SOURCE[0]}")" && pwd)"

# The crates of those names and those on which they stand, as they lie here, into the folder. Those of the kit needn't be copied.
add_libraries() {
  local folder="$1" library
  mkdir -p "$folder/crates"
  cp "$benches/../HANDLES" "$folder/HANDLES"
  for library in "${@:2}"; do
    [ -d "$benches/../crates/$library" ] && [ ! -e "$folder/crates/$library" ] || continue
    tar -C "$benches/../crates" --exclude=out -c "$library" | tar -C "$folder/crates" -x
    grep "^$library:" "$benches/../crates.txt" >>"$folder/crates.txt"
    # shellcheck disable=SC2046  # the names are words
    add_libraries "$folder" $(sed -n "s/^$library: //p" "$benches/../crates.txt")
  done
}

# The sources beside this into the folder, as the crate of that name, which stands on the others.
add_crate() {
  local folder="$1" sources="$2" name="$3"
  cp -r "$benches/$sources" "$folder/crates/$name"
  find "$folder/crates/$name" -name '*.source' | while read -r file; do mv "$file" "${file%.source}"; done
  echo "$name: ${*:4}" >>"$folder/crates.txt"
}

# Proves and builds the program of that name in the folder, which takes some minutes. It runs once.
build_program() {
  (cd "$1/crates/$2" && rt run >"$1/log" 2>&1) || { tail -5 "$1/log" >&2; exit 1; }
}
