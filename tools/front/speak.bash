# What the front adds to the program's answers, on standard error alone: its status and its output stay as they are. To be read by a
# script of bash that has set `front`, the folder of this file. Sentences on a fault need python3; without it they are left out.

source "${BASH_SOURCE[0]%/*}/words.bash" || return 1

# Where this script's own words go. `answer` keeps what was its standard error under another number.
told=2
# The status that the script ends with, unless the program gives another one.
ending=70
# Which of the numbers 0, 1 and 2 the caller had closed.
closed=''
# The process that runs for it, and the function that clears away what it has begun.
running=''
at_end=true

say() {
  printf '%s\n' "$*" >&"$told"
}

# From here on the script ends with `ending`, also where bash itself gives up, or by the signal that ends it. Either way it clears away.
begin() {
  open_closed
  trap leave EXIT
  end_by_signals
}

# Opens what was closed, so that nothing else takes its place. The program has it closed again.
open_closed() {
  if [ ! -d /dev/fd/ ]; then return; fi
  [ -e /dev/fd/0 ] || { closed+=' 0'; exec 0<>/dev/null; }
  [ -e /dev/fd/1 ] || { closed+=' 1'; exec 1<>/dev/null; }
  [ -e /dev/fd/2 ] || { closed+=' 2'; exec 2<>/dev/null; }
}

leave() {
  "$at_end"
  exit "$ending"
}

end_by_signals() {
  local signal
  # shellcheck disable=SC2064 # each trap has the name of its own signal
  for signal in HUP INT TERM; do trap "end_by $signal" "$signal"; done
}

# Ends what runs for the script by that signal, and then the script itself.
end_by() {
  trap - EXIT HUP INT TERM
  if [ -n "$running" ]; then { kill -s "$1" "$running"; wait "$running"; } 2>/dev/null || true; fi
  "$at_end"
  kill -s "$1" "$BASHPID"
}

# The words of a command that are files.
files_of() {
  case "$1" in
    check | explain | prove | bound | rest | waits | emit | draft) files=("$2") ;;
    crew) files=("$2" "$3") ;;
    *) files=("${@:2}") ;;
  esac
}

# Status 4: which file wasn't read, and what the system says of it. One that can be opened but once isn't opened again.
say_file() {
  local files file words
  files_of "$@"
  for file in "${files[@]}"; do
    [ ! -p "$file" ] && [ ! -c "$file" ] || continue
    words="$(LC_ALL=C head -c 1 -- "$file" 2>&1 >/dev/null)" || { say "ipanema: $file wasn't read: ${words##*: }"; return; }
  done
  say "ipanema: a file wasn't read, and now each can be; call it again"
}

# Status 1 of `check`: what tells more of the policy, if it has a name under which it can be read again.
say_refused() {
  case "$2" in /dev/* | /proc/*) return ;; esac
  say "ipanema: \`ipanema explain ${2@Q} NAME\` gives numbers at which a line above fails, and \`all\` in place of NAME does so for each"
  if [ -x "$front/../witness" ] || [ -x "$front/../../share/ipanema/tools/witness" ]; then
    say "ipanema: where a \`B\` fails, \`tools/witness ${2@Q}\` finds a trace on which it shows, and \`ipanema waste ${2@Q} TRACE\` tells what that wastes"
  else
    say "ipanema: where a \`B\` fails, \`ipanema waste ${2@Q} TRACE\` tells what is wasted on a trace"
  fi
}

# Status 1 or 3 of a command that wants right handlers.
say_not_playable() {
  local what='played'
  [ "$1" != draft ] || what='written'
  say "ipanema: an obligation of a handler, \`H1\` or \`H2\`, doesn't hold or is undecided, so nothing was $what; \`ipanema explain ${2@Q} NAME\` says more of a line above"
}

# Status 1 or 3 of a command that wants an accepted policy.
say_not_accepted() {
  local what='played' verdict='refused'
  [ "$1" -eq 1 ] || verdict='undecided'
  case "$2" in
    prove) what='proved' ;;
    emit) what='written' ;;
    replay | report | migrate | why) what='judged' ;;
  esac
  say "ipanema: the policy is $verdict, so nothing was $what; \`ipanema explain ${3@Q} NAME\` says more of a line above"
}

# Status 2, 8, 9 or 10: a sentence on the fault, on where it stopped, or on why a history isn't whole, if python3 is there and finds one.
say_fault() {
  # shellcheck disable=SC2261 # `told` is another number than that of the standard error by now
  command -v python3 >/dev/null && python3 -I "$front/tell.py" "$@" >&"$told" 2>/dev/null
}

# Answers what doesn't reach the program, and ends then: a call for help, or for the version, which the first word says.
answer_alone() {
  case "$2" in
    help | -h | --help) usage; ending=0; exit ;;
    --version) say "$1"; ending=0; exit ;;
  esac
}

# Runs the program, as if it were called itself: it ends when this script is ended, and has the files that this script was given.
# It runs beside the script, which so can hear of a signal. Bash would then let it ignore the interrupts of the keyboard. It ignores
# them only where the script itself was told to.
run_program() {
  local guarded=() heard=(INT QUIT) status=0
  if setpriv --pdeathsig TERM true 2>/dev/null; then guarded=(setpriv --pdeathsig TERM --); fi
  if [[ "$(trap -p INT)" = "trap -- '' "* ]]; then heard=(); fi
  end_by_signals
  begin_program "$@" <&0 &
  running=$!
  wait "$running" || status=$?
  running=''
  return "$status"
}

# Becomes the program. What was closed as the script began is closed again.
begin_program() {
  local number
  for number in $closed; do exec {number}>&-; done
  if [ "$told" -ne 2 ] && [[ "$closed" != *2* ]]; then exec 2>&"$told" || exit 70; fi
  if [ "$told" -ne 2 ]; then exec {told}>&-; fi
  if [ ${#heard[@]} -gt 0 ]; then trap - "${heard[@]}"; fi
  exec "${guarded[@]}" "$@"
}

# Whether that file is the program: called without words it says that they are bad, if it has the memory for that.
is_program() {
  local said status=0
  said="$("$1" 2>/dev/null </dev/null)" || status=$?
  [ "$status,$said" = '7,bad words' ] || [ "$status" -eq 6 ] || is_signal "$status"
}

is_signal() {
  [ "$1" -gt 128 ] && [ "$1" -le 192 ]
}

# Says on standard error what there is to say of an answer, and ends with its status.
end_with() {
  local status=$1 program=$2
  shift 2
  if [ "$status" -gt 11 ] && ! is_signal "$status"; then say "ipanema: the system didn't run $program"; exit 70; fi
  ending=$status
  {
    case "$status,${1:-}" in
      7,*) say_words "$@" ;;
      4,*) say_file "$@" ;;
      2,* | 8,* | 9,* | 10,*) say_fault "$status" "$program" "$@" ;;
      1,check) say_refused "$@" ;;
      [13],simulate | [13],waste | [13],draft) say_not_playable "$@" ;;
      [13],prove | [13],emit | [13],play | [13],run | [13],crew | [13],replay | [13],report | [13],migrate | [13],why) say_not_accepted "$status" "$@" ;;
    esac
  } >/dev/null
  exit "$status"
}

# Keeps standard error under another number, where the system has one left. So bash's own line on a signal is left out.
keep_told() {
  local kept spare
  if (exec {kept}>&2 {spare}>&2) 2>/dev/null; then exec {kept}>&2 2>/dev/null; told=$kept; fi
}

# Runs the program on the words, says what there is to say, and ends with its status.
answer() {
  local program=$1 status=0
  shift
  keep_told
  if is_for_all "$@"; then answer_all "$program" "$2"; fi
  run_program "$program" "$@" || status=$?
  end_with "$status" "$program" "$@"
}

# Whether the words ask to explain all obligations, of a policy that can be read more than once.
is_for_all() {
  [ $# -eq 3 ] && [ "$1,$3" = explain,all ] && [ ! -p "$2" ] && [ ! -c "$2" ]
}

# Explains one obligation after the other, in the order of `check`. The status is 1 where one fails, else 3 where one is undecided.
# Any other status than that of a line ends it.
answer_all() {
  local name status all=0
  for name in B{1,2,3,4} {H1,H2}.enqueue {H1,H2}.tick {H1,H2}.yield {H1,H2}.block; do
    status=0
    run_program "$1" explain "$2" "$name" || status=$?
    case "$status" in
      0) ;;
      1) all=1 ;;
      3) [ "$all" -eq 1 ] || all=3 ;;
      *) end_with "$status" "$1" explain "$2" "$name" ;;
    esac
  done
  end_with "$all" "$1" explain "$2" all
}
