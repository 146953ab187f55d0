# How ./ipanema builds a program from the sources alone, and what becomes of a build that is cut off. To be read by that
# script, which has set `top`, `front` and `sum`, or by a guard (below).
#
# A build works in a folder of its own, out/unproved/build.XXXXXX. The file `mark` there says that a build made the
# folder, and is locked as long as the script or its guard lives. Its second line is the process group of `rt try`, with
# when that began.
MARK='a build of ./ipanema'
kept="$top/out/unproved"
# The folder of the build at hand.
work=''

# Ends with 70, and one line that says why.
cannot() {
  say "ipanema: it couldn't be built: $1"
  exit 70
}

# A trace that the program takes long for, in which it can be found.
long_trace() {
  printf 'cores 8\nrounds 4096\nentries 65536\n'
  for core in 0 1 2 3 4 5 6 7; do printf 'thread %s core %s round 1 forever\n' $((core + 1)) "$core"; done
}

# Writes when that process began, by the system's count. No two processes have both in common.
began_of() {
  local line words
  { read -r line <"/proc/$1/stat"; } 2>/dev/null || return
  read -r -a words <<<"${line##*) }"
  echo "${words[19]}"
}

# Ends `rt try` of the build in that folder, with all that it started, should it still run. `rt` cleans up when it is
# told to end, so it is given two seconds for that.
end_try() {
  local group began now tries
  read -r group began < <(sed -n 2p -- "$1/mark" 2>/dev/null)
  if [ -z "$group" ] || { now="$(began_of "$group")" && [ "$now" != "$began" ]; }; then return; fi
  kill -TERM -- "-$group" 2>/dev/null
  for ((tries = 0; tries < 40; tries++)); do
    kill -0 -- "-$group" 2>/dev/null || return
    sleep 0.05
  done
  kill -KILL -- "-$group" 2>/dev/null
}

# Ends the build at hand, and removes its folder.
clear_away() {
  end_try "$work"
  rm -rf -- "$work"
  at_end=true
}

# Clears away should the script be killed outright, of which it is told nothing itself: then the pipe ends that only it
# holds. A line says that nothing is left to do. The guard is in a session of its own, so that what kills the group of
# the script spares it.
guard() {
  work=$1
  trap '' HUP INT TERM
  cd /
  read -r _ || clear_away
}

# Begins a guard for the build at hand. What is written to `hold` goes to it.
begin_guard() {
  local apart=()
  if command -v setsid >/dev/null; then apart=(setsid); fi
  # shellcheck disable=SC2016 # the words are those of another script
  exec {hold}> >(exec "${apart[@]}" bash -pc 'top=$1 front=$2; source "$front/build.bash"; guard "$3"' \
    "$top/ipanema" "$top" "$front" "$work" >/dev/null 2>&1)
}

# Makes the folder of a build, with its mark. That is locked before another call can find it.
make_folder() {
  work="$(mktemp -d -- "$kept/build.XXXXXX" 2>/dev/null)" && [ -n "$work" ] || cannot "nothing can be written to $kept"
  at_end=clear_away
  { mkdir -- "$work/room" && long_trace >"$work/trace" && echo "$MARK" >"$work/new"; } 2>/dev/null ||
    cannot "nothing can be written to $kept"
  exec {lock}<"$work/new"
  if command -v flock >/dev/null; then flock -n "$lock"; fi
  mv -- "$work/new" "$work/mark"
}

# Clears away what builds left that were killed with their guards. Only a folder is removed that has the name and the
# mark of one, and none behind a link.
sweep() {
  local folder mark
  if [ -L "$top/out" ] || [ -L "$kept" ] || ! command -v flock >/dev/null; then return; fi
  for folder in "$kept"/build.??????; do
    if [ -L "$folder" ] || [ -L "$folder/mark" ] || ! read -r mark 2>/dev/null <"$folder/mark"; then continue; fi
    if [ "$mark" != "$MARK" ] || ! flock -n "$folder/mark" true; then continue; fi
    end_try "$folder"
    rm -rf -- "$folder"
  done
}

# Keeps the program of `rt try` by a hard link while it runs, if it is there: it is deleted when `rt try` ends.
catch_program() {
  local found
  for found in "$work"/room/*/program "$work"/room/*/*/program; do
    if [ -f "$found" ] && [ -x "$found" ]; then ln -f -- "$found" "$work/program" 2>/dev/null; return; fi
  done
  return 1
}

# Says each ten seconds how long the build has been going on.
say_time() {
  if [ $((SECONDS - began)) -lt "$next" ]; then return; fi
  say "ipanema: building, $next s so far"
  next=$((next + 10))
}

# Becomes `rt try`, and notes in the mark which process group that is.
try_program() {
  local group=$BASHPID
  exec {hold}>&- {lock}<&-
  echo "$group $(began_of "$group")" >>"$work/mark" && cd -- "$top/crates/ipanema" &&
    TMPDIR="$work/room" exec rt try --data policy="$top/examples/basic.policy" --data trace="$work/trace" \
      -- play policy trace
}

# Runs `rt try` in a process group of its own, which ends when its program is kept, or when this script ends.
run_try() {
  local hold pid began=$SECONDS next=10
  begin_guard
  set -m
  try_program </dev/null >"$work/log" 2>&1 &
  pid=$!
  set +m
  while kill -0 "$pid" 2>/dev/null; do
    if catch_program; then end_try "$work"; fi
    say_time
    sleep 0.02
  done
  wait "$pid" 2>/dev/null
  echo ended >&"$hold"
  exec {hold}>&-
}

# Removes programs of other sources. None behind a link is removed, and nothing but what ./ipanema keeps.
drop_old() {
  local folder
  if [ -L "$top/out" ] || [ -L "$kept" ]; then return; fi
  for folder in "$kept"/*; do
    if [ -L "$folder" ] || [ "${folder##*/}" = "$sum" ] || [[ ! "${folder##*/}" =~ ^[0-9a-f]{64}$ ]]; then continue; fi
    rm -f -- "$folder/ipanema" "$folder"/ipanema.*
    rmdir -- "$folder"
  done 2>/dev/null
}

# Says of a proved program of other sources that it is kept here, the newest one, and of one that is installed that it is there.
# Neither need be one of these sources, so neither is run.
say_others() {
  local file newest='' place version=''
  for file in "$top"/out/proved/*/ipanema; do
    if [ -x "$file" ] && [ "$file" != "$top/out/proved/$sum/ipanema" ] && { [ -z "$newest" ] || [ "$file" -nt "$newest" ]; }; then newest="$file"; fi
  done
  if [ -n "$newest" ]; then say "ipanema: a proved program of other sources is kept, as $newest"; fi
  place="$(type -P ipanema)" && place="$(readlink -f -- "$place")" || return 0
  { read -r version <"${place%/bin/*}/lib/ipanema/version"; } 2>/dev/null
  if [[ "$version" = *'(proved)'* ]]; then say "ipanema: a proved program is installed, as $place: $version"; fi
}

# Builds the program. Without words it must say that they are bad.
build() {
  local lock
  umask 022
  mkdir -p -- "$kept" 2>/dev/null || cannot "there can't be a folder $kept"
  make_folder
  say "ipanema: building the program from its sources, in one to three minutes;" \
    "it isn't proved and is slow, and tools/prove makes the proved one"
  say_others
  run_try
  if ! is_program "$work/program"; then
    mv -f -T -- "$work/log" "$kept/build.log"
    cannot "see $kept/build.log"
  fi
  [ "$(sum_of_sources)" = "$sum" ] || cannot "a source has changed meanwhile; call it again"
  keep_as "$work/program" unproved "$sum" || cannot "nothing can be written to $kept"
  clear_away
  exec {lock}<&-
  drop_old
}
