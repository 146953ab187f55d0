# How tools/prove says how far it is. To be read by that script, which has set `top`, `order` and `log`.
#
# How much a crate takes stands in the table of docs/GATE.md, in minutes of a processor. What isn't there counts as one minute.
declare -A tenths=()

# Reads that table: the second column is the crate's name, and the third the minutes of its proof.
read_minutes() {
  local name minutes
  while IFS='|' read -r _ name minutes _; do
    name="${name//[ \`]/}"
    minutes="${minutes// /}"
    if [[ "$name" =~ ^[a-z][a-z0-9_]*$ && "$minutes" =~ ^[0-9]+\.[0-9]$ ]]; then tenths[$name]=$((10#${minutes/./})); fi
  done < <(cat -- "$top/docs/GATE.md" 2>/dev/null)
}

# Writes how many tenths of a minute that crate takes.
tenths_of() {
  echo "${tenths[$1]:-10}"
}

# Writes how many of the crates are done, and how long it has been at it.
how_far() {
  printf '%d of %d crates, %d:%02d minutes' "$1" ${#order[@]} $((SECONDS / 60)) $((SECONDS % 60))
}

# Writes about how many minutes are left, from what is still to be proved, and what was proved by now in how many seconds. At first
# the number of processors says how fast that may go.
minutes_left() {
  local rest=$1 proved=$2 seconds=$3 processors left
  processors="$(nproc 2>/dev/null || echo 1)"
  if [ "$processors" -gt 4 ]; then processors=4; fi
  left=$((rest / (10 * processors)))
  if [ "$proved" -ge 50 ]; then left=$((rest * seconds / proved / 60)); fi
  echo $((left + (rest > 0)))
}

# Reads what `rt ci` says of that copy, keeps it in the log, and says of each crate that it is done.
tell_progress() {
  local line name out done=0 rest=0 proved=0 from=$SECONDS
  for name in "${order[@]}"; do rest=$((rest + $(tenths_of "$name"))); done
  echo "$(how_far 0), about $(minutes_left "$rest" 0 0) left"
  exec {out}>>"$log"
  while IFS= read -r line; do
    printf '%s\n' "${line//"$1"/"$top"}" >&"$out"
    if [[ ! "$line" =~ ^rt:\ ([a-z0-9_]+)\ (proved$|is\ kept:) ]]; then continue; fi
    name="${BASH_REMATCH[1]}"
    done=$((done + 1))
    rest=$((rest - $(tenths_of "$name")))
    if [ "${BASH_REMATCH[2]}" = proved ]; then
      proved=$((proved + $(tenths_of "$name")))
    else
      name+=' was proved before'
      if [ "$proved" -eq 0 ]; then from=$SECONDS; fi
    fi
    echo "$(how_far "$done"), about $(minutes_left "$rest" "$proved" $((SECONDS - from))) left: $name"
  done
}

# Writes why `rt ci` failed, as far as the log tells.
why_not() {
  local name
  name="$(sed -n 's/^rt: \([a-z0-9_]*\) NOT PROVED.*/\1/p' "$log" | head -n 1)"
  if [ -n "$name" ]; then echo "$name isn't proved"; else echo "rt ended, and not all is proved"; fi
}
