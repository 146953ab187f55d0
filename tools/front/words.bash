# What the front says of the words of a call: usages, what is near a word, and what is wrong (status 7). To be read by speak.bash.

commands=(check explain prove bound rest waits emit draft verify play run crew simulate waste replay report migrate why make bench)
obligations=(B1 B2 B3 B4 {H1,H2}.{enqueue,tick,yield,block})

# The words of a command, and what it does.
usage_of() {
  case "$1" in
    check) say '  ipanema check POLICY                    is the policy accepted? a line for each obligation' ;;
    explain) say '  ipanema explain POLICY NAME             does that obligation hold, or each (`all`)? if not, numbers at which it fails' ;;
    prove) say '  ipanema prove POLICY                    write the certificates of an accepted policy, which anyone can verify' ;;
    bound) say '  ipanema bound POLICY                    what bounds the rounds that the policy may waste?' ;;
    rest) say '  ipanema rest POLICY                     how far may the loads of cores differ that steal no more?' ;;
    waits) say '  ipanema waits POLICY                    how long may a thread wait for its core, or does one starve?' ;;
    emit) say '  ipanema emit POLICY                     write the rules of an accepted policy as a header in C' ;;
    draft) say '  ipanema draft POLICY                    write the rules of a policy that can be played as a header in C' ;;
    verify) say '  ipanema verify POLICY CERTS             do these certificates prove the policy? no solver is asked' ;;
    play) say '  ipanema play POLICY TRACE               play the trace, core after core, and write the history' ;;
    run) say '  ipanema run POLICY TRACE                play it with all cores side by side' ;;
    crew) say '  ipanema crew POLICY TRACE WORKERS       play it with so many workers, 1 to 64, each with some of the cores' ;;
    simulate) say '  ipanema simulate POLICY TRACE           play it core after core, also where the policy may waste cores' ;;
    waste) say '  ipanema waste POLICY TRACE              what did that history waste, and why did its steals fail?' ;;
    replay) say '  ipanema replay POLICY TRACE HISTORY     is that history whole?' ;;
    report) say '  ipanema report POLICY TRACE HISTORY     what did that history waste, and why did its steals fail?' ;;
    migrate) say '  ipanema migrate POLICY TRACE HISTORY    write that history in the format of today, if it is whole' ;;
    why) say '  ipanema why POLICY TRACE HISTORY        why is that history not whole, and what is legal there?' ;;
    make) say '  ipanema make SEED SIZE                  write a made trace of SIZE threads, 1 to 1023, drawn from a number SEED' ;;
    bench) say '  ipanema bench SEED SIZE                 play that trace under a built-in policy, and count' ;;
  esac
}

usage() {
  local command
  say 'usage:'
  for command in "${commands[@]}"; do usage_of "$command"; done
  say '  ipanema help                            this text; docs/COMMANDS.md and `man ipanema` say more'
}

# Whether the second word is but a slip away from the first: a letter is more, less or another, or two changed places.
is_slip() {
  local one="${1,,}" other="${2,,}"
  while [ -n "$one" ] && [ "${one:0:1}" = "${other:0:1}" ]; do one="${one:1}" other="${other:1}"; done
  while [ -n "$one" ] && [ "${one: -1}" = "${other: -1}" ]; do one="${one:0:-1}" other="${other:0:-1}"; done
  case ${#one},${#other} in
    0,0 | 0,1 | 1,0 | 1,1) return 0 ;;
    2,2) [ "$one" = "${other:1:1}${other:0:1}" ] ;;
    *) return 1 ;;
  esac
}

# Finds which of the other words are near the first: the one that differs in case alone; or else those that begin so, or are a slip
# away from it.
find_near() {
  local word=$1 other
  shift
  near=()
  if [ ${#word} -lt 2 ] || [ ${#word} -gt 30 ]; then return; fi
  for other in "$@"; do
    if [ "${word,,}" = "${other,,}" ]; then near=("$other"); return; fi
    if [[ "${other,,}" = "${word,,}"* ]] || is_slip "$word" "$other"; then near+=("$other"); fi
  done
}

# Says that the word is no command or no obligation, and what is near.
say_near() {
  local shown=''
  if [ ${#near[@]} -gt 0 ]; then printf -v shown ', `%s`' "${near[@]}"; fi
  say "ipanema: there is no $2 \`$1\`${shown:+; near is${shown#,}}"
}

# How many words a command takes behind it.
words_of() {
  case "$1" in
    check | prove | bound | rest | waits | emit | draft) echo 1 ;;
    crew | replay | report | migrate | why) echo 3 ;;
    *) echo 2 ;;
  esac
}

# Whether the words are a seed and a size.
are_numbers() {
  [[ "$1" =~ ^[0-9]{1,20}$ && "$2" =~ ^[0-9]{1,20}$ ]]
}

# Whether the word is UTF-8, as far as can be told here.
is_utf8() {
  ! command -v iconv >/dev/null || printf '%s' "$1" | iconv -f UTF-8 -t UTF-8 >/dev/null 2>&1
}

# Whether no command takes the word. If so it says why, but of a call for help.
say_bad_word() {
  case "$1" in
    '') say 'ipanema: a word is empty' ;;
    -h | --help) ;;
    -*) say "ipanema: there are no options; a file of the name \`$1\` is named as ./$1" ;;
    *) if is_utf8 "$1"; then return 1; fi; say "ipanema: the word ${1@Q} isn't UTF-8, as words must be; give the file a link with another name" ;;
  esac
}

# That the word is no obligation, and which there are.
say_obligations() {
  find_near "$1" all "${obligations[@]}"
  say_near "$1" obligation
  say "ipanema: the obligations are ${obligations[*]}, and \`all\` stands for each of them"
}

# Status 7: what is wrong with the words, and the usage of the command that was meant, or of all.
say_words() {
  local command="${1:-}" word near wanted bad=''
  if [ $# -eq 0 ]; then usage; return; fi
  if [[ " ${commands[*]} " != *" $command "* || "$command" = *' '* ]]; then
    is_utf8 "$command" || command="${command@Q}"
    find_near "$command" "${commands[@]}"
    say_near "$command" command
    if [ ${#near[@]} -eq 1 ]; then say 'usage:'; usage_of "${near[0]}"; else usage; fi
    return
  fi
  shift
  for word in "$@"; do
    if say_bad_word "$word"; then bad=yes; fi
  done
  wanted="$(words_of "$command")"
  if [ $# -ne "$wanted" ]; then
    say "ipanema: the number of words behind \`$command\` is $wanted, and here it is $#"
  elif [ -n "$bad" ]; then
    :
  elif [ "$command" = explain ]; then
    if [ "$2" = all ]; then say 'ipanema: `all` reads the policy once for each obligation, so it must be a plain file'; else say_obligations "$2"; fi
  elif [ "$command" = crew ]; then
    say 'ipanema: WORKERS is digits alone, at most twenty, and from 1 to 64'
  elif [ "$command" = make ] || [ "$command" = bench ]; then
    if are_numbers "$@"; then say 'ipanema: SEED is below 2^64, and SIZE from 1 to 1023'; else say 'ipanema: SEED and SIZE are digits alone, at most twenty'; fi
  fi
  say 'usage:'
  usage_of "$command"
}
