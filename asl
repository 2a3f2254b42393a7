#!/usr/bin/env bash
# Runs the program `asl`: the one that was proved and built here of the sources as they stand; else the one that boot/ carries, if it was
# made of just these sources; else it is proved and built first. So no program answers but of proved sources. While neither
# sources nor program have changed, by their times and sizes, nothing is asked again.
#
# usage: ./asl WORD..              runs the program
#        ./asl --prove             proves and builds it here, and says whether that is what boot/ carries
#        ./asl --which             says which program answers
#        ./asl --unproved WORD..   runs the sources at once, with nothing proved: after a minute or two, with up to 64 MiB of input and
#                                  1 MiB of output
set -eu
self=${BASH_SOURCE[0]}
[ ! -L "$self" ] || self=$(readlink -f "$self")
case $self in */*) root=${self%/*} ;; *) root=. ;; esac
root=$(cd -P "$root" && echo "$PWD")
# where it is noted which program answers: here, or in the user's cache where nothing can be written here
found=$root/out/found
[ -w "$root" ] || found=${XDG_CACHE_HOME:-${HOME:-}/.cache}/asl/${root//\//%}

# list PATH..: each source and other file below these paths, with its size, its last change and its place on the disk
list() {
  (cd "$root" && exec find "$@" -type f -printf '%p %s %C@ %i\n' 2>/dev/null) || :
}

# whether all that was noted is as it was
is_as_found() {
  [ -f "$found/listing" ] && mapfile -t looked_at <"$found/looked-at" && list "${looked_at[@]}" | cmp -s - "$found/listing"
}

case ${1:-} in
  --unproved)
    shift
    exec "$root/boot/unproved" "$@" ;;
  --prove)
    . "$root/boot/answering.sh"
    find_program --prove
    compare_with_carried
    exit ;;
esac
is_as_found || { . "$root/boot/answering.sh"; find_program; }
if [ "${1:-}" = --which ]; then
  . "$root/boot/answering.sh"
  tell_which
  exit
fi
read -r program <"$found/looked-at"
# past a limit on the size of files (ulimit -f) a write is to fail, and not to end the program by a signal
trap '' XFSZ
case $program in /*) exec "$program" "$@" ;; *) exec "$root/$program" "$@" ;; esac
