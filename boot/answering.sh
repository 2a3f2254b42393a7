# Finds the program that answers, and notes in the folder $found what that rests on, so that `asl` need not ask again before something
# has changed: `asl` reads this file where nothing is noted or something has changed.
. "$root/boot/sources.sh"
own=$root/crates/asl/out
. "$root/boot/proving.sh"

# The program that was built here counts if it was built from just these sources and is still the same. Where there is no note of that, rt
# has built it without this script, as the gate does: then it counts if no source is newer.
is_proved_here() {
  local sources='' own_sum='' name
  [ -x "$own/asl" ] || return 1
  if [ ! -f "$own/built-from" ]; then
    for name in $(names_below asl); do
      [ -z "$(find "$root/crates/$name" -name out -prune -o -type f -newer "$own/asl" -print -quit)" ] || return 1
    done
    echo "$1 $(sum_of "$own/asl")" >"$own/built-from"
  fi
  read -r sources own_sum <"$own/built-from" || :
  [ "$sources" = "$1" ] && { [ -z "$own_sum" ] || [ "$own_sum" = "$(sum_of "$own/asl")" ]; }
}

# link_carried SUM: the carried program, linked here once for sources of this sum
link_carried() {
  local carried=$found/asl
  [ -x "$carried" ] && [ "$(cat "$found/linked" 2>/dev/null)" = "$1 $(noted packed) $(sum_of "$carried")" ] &&
    [ "$(sum_of "$root/boot/objects.tar.xz" 2>/dev/null)" = "$(noted packed)" ] && return
  "$root/boot/link" program "$carried" || exit
  echo "$1 $(noted packed) $(sum_of "$carried")" >"$found/linked"
  echo 'asl: this program was made of these very sources where they were proved (boot/README.md); ./asl --prove proves them here' >&2
}

# what the answer depends on, but for the program itself, which comes first
look_at() {
  local name
  printf '%s\n' "$1" boot crates.txt HANDLES
  for name in $(names_below asl); do printf '%s\n' "crates/$name/"{src,specs,proofs}; done
}

# note PROGRAM KIND SUM LISTING: what was found
note() {
  look_at "$1" >"$found/looked-at"
  printf '%s\n' "$2" "$3" >"$found/kind"
  { list "$1"; cat "$4"; } >"$found/listing"
}

# waits while another call builds or links in this repository
take_turn() {
  local lock=$root/.asl-build-lock
  mkdir -p "$found" 2>/dev/null || { echo "asl: $found cannot be written to: XDG_CACHE_HOME may name another folder" >&2; exit 1; }
  [ -w "$root" ] || lock=$found/lock
  exec 9>"$lock"
  flock -n 9 || { echo 'asl: waits for another build of this repository' >&2; flock 9; }
}

# find_program [--prove]: which program answers; with --prove one that is proved and built here
find_program() {
  local sources program=crates/asl/out/asl kind='proved here' seen
  take_turn
  seen=$(mktemp)
  mapfile -t looked_at < <(look_at '' | sed 1d)
  list "${looked_at[@]}" >"$seen"
  sources=$(sum_of_sources asl)
  if [ "${1:-}" = --prove ]; then
    build
  elif is_proved_here "$sources"; then
    :
  elif [ "$(noted program)" = "$sources" ]; then
    link_carried "$sources"
    program=$found/asl kind=carried
  else
    [ ! -f "$root/boot/sum" ] || echo 'asl: a source is not the one that the carried program was made of, so it is proved and built here' >&2
    build
  fi
  note "$program" "$kind" "$sources" "$seen"
  rm -f "$seen"
  exec 9>&-
}

# whether the object that was built here is the carried one
compare_with_carried() {
  local carried
  carried=$(noted object asl.o)
  if [ -z "$carried" ]; then
    echo 'asl: boot/ carries nothing to compare it with' >&2
  elif [ "$carried" = "$(sum_of "$own/asl.o")" ]; then
    echo 'asl: what was proved and built here is what boot/ carries, byte for byte' >&2
  else
    echo 'asl: what was proved and built here is not what boot/ carries' >&2
  fi
}

# which program answers, of which sources, by which logic
tell_which() {
  local kind sources program
  { read -r kind; read -r sources; } <"$found/kind"
  case $kind in
    carried) echo 'the carried program, made where these sources were proved; ./asl --prove proves them here' ;;
    *) echo 'the program that was proved and built here' ;;
  esac
  read -r program <"$found/looked-at"
  case $program in /*) ;; *) program=$root/$program ;; esac
  printf '%s\n' "program $program" "sources $sources" "logic $logic"
}
