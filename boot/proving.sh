# Proves the crates that the program stands on, and builds it: `build`. Crates that do not stand on one another are proved side by side; a
# build that was interrupted continues with those that are left. How far it is goes to standard error, what the prover says to
# crates/asl/out/build.log. `asl` reads this file where it has to build; it has `root`, `own` and what boot/sources.sh has.
log=$own/build.log

# sums_below: each crate with a sum of its sources and of those of the crates below it
sums_below() {
  local -A sums=()
  local name below low
  while read -r name below; do
    sums[$name]=$({
      echo "$logic"
      cat "$root/HANDLES"
      line_of "$name"
      sources_of "$name"
      for low in $below; do echo "${sums[$low]}"; done
    } | sum_of)
    echo "$name ${sums[$name]}"
  done < <(crates_below asl)
}

# is_proved NAME SUM: a build has proved the crate from just these sources
is_proved() {
  local kept=$root/crates/$1/out
  [ -d "$kept/rlib" ] && [ -f "$kept/proved-from" ] && [ "$(<"$kept/proved-from")" = "$2" ]
}

# links_to VIEW NAME PART..: parts of a crate as links in a view
links_to() {
  local view=$1 name=$2 part
  shift 2
  mkdir -p "$view/crates/$name"
  for part in "$@"; do
    [ ! -d "$root/crates/$name/$part" ] || cp -al "$root/crates/$name/$part" "$view/crates/$name/$part"
  done
}

# what a view has made of its crate goes to the crate's own folder, and the view goes, wherever an earlier build was interrupted
take_back() {
  [ ! -d "$1/crates/$2/out" ] || { rm -rf "$root/crates/$2/out"; mv "$1/crates/$2/out" "$root/crates/$2/out"; }
  rm -rf "$1"
}

# prove NAME SUM JOBS NICENESS BUILT..: proves a crate in a view, a folder with links to what is built already: rt lets nobody else
# work in the crates that a run stands on, so in one folder crates that share a lower one would wait for each other
prove() {
  local name=$1 sum=$2 jobs=$3 niceness=$4 low view=$own/views/$1 status=0
  shift 4
  take_back "$view" "$name"
  links_to "$view" "$name" src specs proofs
  for low in "$@"; do
    mkdir -p "$view/crates/$low/out"
    links_to "$view" "$low" src specs proofs out/rlib
  done
  for low in "$@" "$name"; do line_of "$low"; done >"$view/crates.txt"
  cp "$root/HANDLES" "$view/HANDLES"
  # the view has no `out` of its own before this: take_back would put it in the place of the crate's
  [ ! -d "$root/crates/$name/out" ] || mv "$root/crates/$name/out" "$view/crates/$name/out"
  (cd "$view/crates/$name" && exec nice -n "$niceness" rt lib --jobs "$jobs") >"$own/build-$name.log" 2>&1 </dev/null || status=$?
  take_back "$view" "$name"
  [ "$status" != 0 ] || echo "$sum" >"$root/crates/$name/out/proved-from"
  return $status
}

# the program itself, once all below it is proved
link() { (cd "$root/crates/asl" && exec rt run -- --help) >"$own/build-asl.log" 2>&1 </dev/null; }

# how long a number of seconds is, in words
spell() { if [ "$1" -lt 100 ]; then echo "$1 s"; else echo "$((($1 + 30) / 60)) min"; fi; }

# reads what is to be built, and how long it took elsewhere
declare -A sums=() waits_for=() seconds=() height=() builds=() began=()
declare -a names=() built=()
plan() {
  local name below low spent i
  while read -r name spent; do seconds[$name]=$spent; done < <(grep -v '^#' "$root/bench/build-seconds" 2>/dev/null || :)
  while read -r name spent; do sums[$name]=$spent; done < <(sums_below)
  while read -r name below; do
    names+=("$name")
    waits_for[$name]=" $below "
    height[$name]=0
  done < <(crates_below asl)
  # the longest chain of crates that begins at this one: those with the longest are proved first
  for ((i = ${#names[@]} - 1; i >= 0; i--)); do
    name=${names[i]}
    height[$name]=$((height[$name] + ${seconds[$name]:-60}))
    for low in ${waits_for[$name]}; do
      [ "${height[$low]}" -ge "${height[$name]}" ] || height[$low]=${height[$name]}
    done
  done
  for name in "${names[@]}"; do
    [ "$name" != asl ] && is_proved "$name" "${sums[$name]}" && is_done "$name"
  done
  return 0
}

# is_done NAME: nothing waits for the crate any more
is_done() {
  local left
  unset "waits_for[$1]"
  built+=("$1")
  for left in "${!waits_for[@]}"; do waits_for[$left]=${waits_for[$left]// $1 / }; done
}

# the seconds that what is left took elsewhere: its longest chain, or its sum on so many processors
seconds_left() {
  local name sum=0 longest=0
  for name in "${!waits_for[@]}"; do
    sum=$((sum + ${seconds[$name]:-60}))
    [ "$longest" -ge "${height[$name]}" ] || longest=${height[$name]}
  done
  echo $((sum / $1 > longest ? sum / $1 : longest))
}

# the crates that wait for none, the one with the longest chain above it first
ready() {
  local name
  for name in "${!waits_for[@]}"; do
    [ -n "${waits_for[$name]// /}" ] || echo "${height[$name]} $name"
  done | sort -rn | cut -d' ' -f2
}

# leads NAME: no crate that is being proved has a longer chain above it
leads() {
  local other
  for other in "${builds[@]}"; do [ "${height[$other]}" -le "${height[$1]}" ] || return 1; done
}

# begin NAME PROCESSORS: proves the crate in a group of processes of its own. The crate that leads, for which most others wait, has two
# processes, or all processors where it is alone; the others have one each and give way to it. (More processes than processors cost: by
# four of them beside three other crates asl_syntax took 950 processor seconds, which alone takes 380.)
begin() {
  local jobs=1 niceness=5
  if leads "$1"; then
    jobs=$2 niceness=0
    [ ${#builds[@]} = 0 ] || [ "$jobs" -le 2 ] || jobs=2
  fi
  set -m
  if [ "$1" = asl ]; then link & else prove "$1" "${sums[$1]}" "$jobs" "$niceness" "${built[@]}" & fi
  set +m
  builds[$!]=$1
  began[$1]=$SECONDS
  unset "waits_for[$1]"
  echo "asl: proving $1${seconds[$1]:+, which took $(spell "${seconds[$1]}") elsewhere}; $((${#waits_for[@]})) more are left" >&2
}

# ends what still runs, with all that it has started
stop_builds() {
  local pid
  for pid in "${!builds[@]}"; do kill -TERM -- "-$pid" 2>/dev/null || :; done
  wait 2>/dev/null || :
}

fail() {
  stop_builds
  builds=()
  echo "asl: $1 was not built; the last lines of $2:" >&2
  tail -n 20 "$2" >&2
  exit 1
}

build_crates() {
  local most name pid
  local -a now
  most=$(crates_at_a_time)
  echo "asl: ${#waits_for[@]} of ${#names[@]} crates are to be proved and built first, up to $most side by side; elsewhere this took $(spell "$(seconds_left "$most")")" >&2
  while [ ${#waits_for[@]} -gt 0 ] || [ ${#builds[@]} -gt 0 ]; do
    mapfile -t now < <(ready)
    for name in "${now[@]}"; do
      [ ${#builds[@]} -ge "$most" ] || begin "$name" "$most"
    done
    [ ${#builds[@]} -gt 0 ] || { echo "asl: crates.txt has crates that stand on one another" >&2; exit 1; }
    if wait -n -p pid "${!builds[@]}"; then :; else
      name=${builds[$pid]}
      unset "builds[$pid]"
      fail "$name" "$own/build-$name.log"
    fi
    name=${builds[$pid]}
    unset "builds[$pid]"
    echo "asl: proved $name in $(spell $((SECONDS - began[$name])))" >&2
    cat "$own/build-$name.log" >>"$log"
    rm -f "$own/build-$name.log"
    is_done "$name"
  done
}

build() {
  local sum
  needs_kit
  mkdir -p "$own"
  : >"$log"
  trap stop_builds EXIT
  trap 'exit 129' HUP
  trap 'exit 130' INT
  trap 'exit 143' TERM
  plan
  sum=$(sum_of_sources asl)
  # (not removed: where there is no sum, a program counts that is not older than its sources)
  echo unfinished >"$own/built-from"
  build_crates
  trap - EXIT HUP INT TERM
  # where a source was changed meanwhile, this is not its sum, and the next call builds again
  echo "$sum $(sum_of "$own/asl")" >"$own/built-from"
}
