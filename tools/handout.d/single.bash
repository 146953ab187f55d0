#!/bin/bash -p
# The program ipanema and what it says of its answers, in one file: an archive stands behind the last line of this script, and is
# unpacked to a temporary folder for each call. It needs bash, tar and gzip; sentences on faults need python3.
# Privileged, bash takes neither settings nor functions from the environment.
unset CDPATH
trap 'exit 70' EXIT
here="$(readlink -n -f -- "${BASH_SOURCE[0]}" && printf .)"
front="$(mktemp -d 2>/dev/null)" || { echo "ipanema: no temporary folder can be made" >&2; exit 70; }
clear_away() { rm -rf -- "$front"; }
trap 'clear_away; exit 70' EXIT
tail -n +@LINES@ -- "${here%.}" 2>/dev/null | tar -xz -C "$front" 2>/dev/null || { echo "ipanema: ${here%.} isn't whole, or $front has no room" >&2; exit 70; }
source "$front/speak.bash"
at_end=clear_away
begin
if [ "${1:-}" = --version ]; then answer_alone "$(cat -- "$front/version")" "$1"; fi
answer_alone '' "${1:-}"
is_program "$front/program" || { say "ipanema: the system doesn't run $front/program"; exit 70; }
answer "$front/program" "$@"
exit 70
