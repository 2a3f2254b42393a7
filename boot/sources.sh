# What the program and the library for C are made of, and the sums of that. The scripts that need it read this file; `root` is the
# repository's folder.

# the logic in which the program says that it was proved
logic=dac8208d650f15bf
# the crates that the library for C is made of
c_crates=(asl_c_forest asl_c_commands asl_c_programs asl_c_sessions)

# crates_below NAME..: these crates and those of the repository below them, lowest first, each with those of them that it stands on
crates_below() {
  awk -F: -v wanted="$*" '
    !/^#/ && NF > 1 { split($1, word, " "); name[++count] = word[1]; uses[word[1]] = $2 }
    END {
      n = split(wanted, low, " ")
      for (k = 1; k <= n; k++) needed[low[k]] = 1
      for (i = count; i > 0; i--)
        if (name[i] in needed) { n = split(uses[name[i]], low, " "); for (k = 1; k <= n; k++) needed[low[k]] = 1 }
      for (i = 1; i <= count; i++) if (name[i] in needed) {
        line = name[i]
        n = split(uses[name[i]], low, " ")
        for (k = 1; k <= n; k++) if (low[k] in uses) line = line " " low[k]
        print line
      }
    }' "$root/crates.txt"
}

# names_below NAME..: the names alone
names_below() { crates_below "$@" | cut -d' ' -f1; }

# line_of NAME: the crate's line in crates.txt
line_of() { grep -E "^$1[ :]" "$root/crates.txt"; }

# sources_of NAME..: the sum and the path of each file of these crates that a proof or a build reads
sources_of() {
  local name part
  local -a folders=()
  for name in "$@"; do
    for part in src specs proofs; do
      [ ! -d "$root/crates/$name/$part" ] || folders+=("crates/$name/$part")
    done
  done
  (cd "$root" && find "${folders[@]}" -type f \( -name '*.rt' -o -name '*.antt' \) -print0 | LC_ALL=C sort -z | xargs -0r sha256sum)
}

# sum_of FILE: of what it holds, or of standard input
sum_of() { sha256sum "$@" | cut -c1-64; }

# sum_of_sources NAME..: of all that these crates are made of
sum_of_sources() {
  local -a names
  local name
  mapfile -t names < <(names_below "$@")
  {
    echo "$logic"
    cat "$root/HANDLES"
    for name in "${names[@]}"; do line_of "$name"; done
    sources_of "${names[@]}"
  } | sum_of
}

# noted NAME..: what boot/sum says beside these words, or nothing
noted() { sed -n "s/^$* //p" "$root/boot/sum" 2>/dev/null || :; }

# needs_kit: rt is there, and proves in this logic; or it is said, with what else there is
needs_kit() {
  local version
  command -v rt >/dev/null || {
    echo 'asl: the command rt of the Rattle kit is needed to prove and build; README.md, "Try it", has ways without it' >&2
    exit 1
  }
  version=$(rt version) || :
  [[ $version == *" logic $logic" ]] || {
    echo "asl: a Rattle kit of the logic $logic is needed to prove and build; rt version says: $version" >&2
    exit 1
  }
}

# as many crates at a time as there are processors, and as memory has room for at 3 GB each
crates_at_a_time() {
  local processors memory limit
  processors=$(nproc)
  memory=$(awk '/^MemAvailable:/ { print $2 }' /proc/meminfo)
  limit=$(cat /sys/fs/cgroup/memory.max 2>/dev/null || echo max)
  [ "$limit" = max ] || [ $((limit / 1024)) -ge "$memory" ] || memory=$((limit / 1024))
  memory=$((memory / 3000000))
  [ "$memory" -ge 1 ] || memory=1
  echo $((processors < memory ? processors : memory))
}
