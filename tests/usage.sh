# The words that a script takes, which reads this before it begins. `--help` prints the line of its head that begins with
# `usage: `, with status 0; after words that it does not know that line goes to standard error, with status 2. Each `[` of the line
# stands for a number that may be given. usage.py is for scripts in Python.
usage=$(sed -n '/^# usage: /{s/^# //p;q;}' "${BASH_SOURCE[1]}")
for word; do
  case $word in --help | -h) echo "$usage"; exit 0 ;; esac
done
numbers=${usage//[!\[]/}
for word; do
  [[ -n $numbers && $word =~ ^[0-9]+$ ]] || { echo "$usage" >&2; exit 2; }
  numbers=${numbers#?}
done
