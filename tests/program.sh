# ASL, the program that is tried: the one that answers for ./asl, found once, where no other is named.
if [ -z "${ASL:-}" ]; then
  ASL=$("$here/../asl" --which | sed -n 's/^program //p')
  [ -n "$ASL" ] || exit 1
fi
ASL=$(readlink -f "$ASL")
export ASL
