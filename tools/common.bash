# What the scripts of bash beside this file have in common. To be read as their first step:
#
#     source "$(dirname -- "$(readlink -f -- "${BASH_SOURCE[0]}")")/common.bash"
#
# From then on `top` is the repository's folder, and the script works there, whatever its caller has set.
unset CDPATH
here="$(readlink -n -f -- "${BASH_SOURCE[0]}" && printf .)"
top="${here%/*/*}"
cd -- "$top" || exit
source "$top/tools/front/programs.bash"

# What was closed is opened, so that no other file takes its place.
[ -e /dev/fd/0 ] || exec </dev/null
[ -e /dev/fd/2 ] || exec 2>/dev/null

# How many things were wrong.
failed=0

wrong() {
  echo "$1" >&2
  failed=$((failed + 1))
}

# Makes `work`, a folder for temporary files that is gone when the script ends.
make_work_folder() {
  work="$(mktemp -d)"
  trap 'rm -rf -- "$work"' EXIT
}

# Finds `program`, the one that ./ipanema uses, without its look at all sources each time. Should it have to be built,
# this says so.
find_built() {
  ./ipanema make 1 1 >/dev/null
  program="$(program_of)"
}

# Writes a file anew from another one. It is there whole or not at all, and no link is followed.
replace() {
  local part
  if [ -L "$2" ]; then echo "$2 is a link, and isn't written" >&2; return 1; fi
  part="$(mktemp -- "$2.XXXXXX")" || return
  if ! { cat -- "$1" >"$part" && chmod 644 -- "$part" && mv -f -T -- "$part" "$2"; }; then rm -f -- "$part"; return 1; fi
}
