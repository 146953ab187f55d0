# Completion of `ipanema` in bash: its commands, the names of obligations behind `explain POLICY`, and files by their endings.
# tools/install puts it where bash looks for it. By hand: `source tools/ipanema.bash`, and then also for `./ipanema`.

# The files of those endings that the word begins, and the folders on the way to them.
_ipanema_files() {
  local ending
  compopt -o filenames 2>/dev/null
  mapfile -t COMPREPLY < <(compgen -d -- "$1"; for ending in "${@:2}"; do compgen -f -X "!*.$ending" -- "$1"; done)
}

_ipanema() {
  local word="${COMP_WORDS[COMP_CWORD]}" wanted=""
  COMPREPLY=()
  case "$COMP_CWORD,${COMP_WORDS[1]}" in
    1,*) wanted="check explain prove bound rest waits emit draft verify play run crew simulate waste replay report migrate why make bench" ;;
    2,check | 2,explain | 2,prove | 2,bound | 2,rest | 2,waits | 2,emit | 2,draft | 2,verify | 2,play | 2,run | 2,crew | 2,simulate | 2,waste | 2,replay | 2,report | 2,migrate | 2,why) _ipanema_files "$word" policy ;;
    3,explain) wanted="all B1 B2 B3 B4 H1.enqueue H2.enqueue H1.tick H2.tick H1.yield H2.yield H1.block H2.block" ;;
    3,verify) _ipanema_files "$word" certs ;;
    3,play | 3,run | 3,crew | 3,simulate | 3,waste | 3,replay | 3,report | 3,migrate | 3,why) _ipanema_files "$word" trace ;;
    4,replay | 4,report | 4,migrate | 4,why) _ipanema_files "$word" history ran ;;
  esac
  [ -z "$wanted" ] || mapfile -t COMPREPLY < <(compgen -W "$wanted" -- "$word")
}

complete -F _ipanema ipanema
