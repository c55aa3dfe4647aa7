# Sourced by the scripts here: proves and builds a program of crates/ where it is missing or older than its sources.
# Set before: `top` the repository, `crate` the program's crate, `name` what it is called in messages, and `hint`, words
# that end the line where the toolchain is missing. Since nearly all crates are on the way of each program, all programs
# are built together.
programs=(upc outcomes_program)
program="$top/crates/$crate/out/$crate"
log="$top/crates/$crate/build.log"

# The crates on the way of these programs, in the order of crates.txt.
way() {
  awk -v goals="$*" '
    { sub(/#.*/, "") }
    /:/ { at = index($0, ":"); split(substr($0, 1, at - 1), head, " "); names[++count] = head[1]
          below[head[1]] = substr($0, at + 1) }
    END {
      count_of_goals = split(goals, goal, " ")
      for (i = 1; i <= count_of_goals; i++) wanted[goal[i]] = 1
      do {
        grew = 0
        for (name in below) if (name in wanted) {
          parts = split(below[name], part, " ")
          for (i = 1; i <= parts; i++) if (part[i] in below && !(part[i] in wanted)) wanted[part[i]] = grew = 1
        }
      } while (grew)
      for (i = 1; i <= count; i++) if (names[i] in wanted) print names[i]
    }' "$top/crates.txt"
}

is_built() {
  local folders=() one
  [ -x "$program" ] || return 1
  while read -r one; do folders+=("$top/crates/$one/src" "$top/crates/$one/specs"); done < <(way "$crate")
  [ -z "$(find "$top/crates.txt" "${folders[@]}" -newer "$program" -print -quit 2>/dev/null)" ]
}

# Copies the crates on the way into a folder: what the proofs read, and nothing that is made or only tested.
copy_way() {
  local one part
  mkdir -p "$1/.git" "$1/crates"
  : >"$1/crates.txt"
  [ ! -e "$top/HANDLES" ] || cp "$top/HANDLES" "$1/"
  while read -r one; do
    grep -E "^$one( [^:]*)?:" "$top/crates.txt" >>"$1/crates.txt"
    mkdir "$1/crates/$one"
    for part in "$top/crates/$one"/*; do
      case ${part##*/} in out | must-fail | *.log) ;; *) cp -r "$part" "$1/crates/$one/" ;; esac
    done
  done < <(way "${programs[@]}")
}

# How far it is: the crates that are proved, by the log.
told=-1
tell() {
  local proved=0 minutes=$((SECONDS / 60)) end='\n'
  proved=$(grep -cE '^rt: [a-z_0-9]+ (proved|is kept)' "$log" || true)
  [ ! -t 2 ] || end='\r'
  if [ -t 2 ] || [ "$proved" != "$told" ]; then
    printf "$name: building: crate %d of %d is proved, after %d min %d s$end" \
      "$proved" "$1" "$minutes" $((SECONDS % 60)) >&2
  fi
  told=$proved
}

# Proves and builds the programs: `rt ci`, the toolchain's gate, over a copy of their crates alone. It proves side by side
# as many crates as there are processors and memory, and takes what it has kept of them on this machine.
build() {
  local room pid count one status=0
  if ! command -v rt >/dev/null; then
    echo "$name: the program is not built, and to build it \`rt\` is missing: it comes with the Rattle toolchain." >&2
    echo "$name: README.md, \"Install\", says which one is wanted$hint." >&2
    exit 127
  fi
  mkdir -p "$top/crates/$crate/out" "$top/crates/${programs[0]}/out"
  if command -v flock >/dev/null; then
    exec 9>"$top/crates/${programs[0]}/out/building"
    if ! flock -n 9; then
      echo "$name: building: another call does it, and this one waits for it" >&2
      flock 9
      if is_built; then exec 9>&-; return; fi
    fi
  fi
  room=$(mktemp -d)
  pid=""
  # However this ends, what was begun ends too.
  trap '[ -z "$pid" ] || kill -TERM -- "-$pid" 2>/dev/null; rm -rf "$room"' EXIT
  trap 'exit 130' INT
  trap 'exit 143' TERM HUP PIPE
  : >"$room/begun"
  copy_way "$room/repository"
  count=$(way "${programs[@]}" | wc -l)
  echo "$name: building first, \`upc\` and \`outcomes\` together: $count crates are proved, on four quick processors in" \
    "half an hour, on others in hours; later calls take none. Log: $log" >&2
  SECONDS=0
  : >"$log"
  set -m
  (cd "$room/repository" && exec rt ci) >"$log" 2>&1 </dev/null 9>&- &
  pid=$!
  set +m
  while kill -0 "$pid" 2>/dev/null; do
    tell "$count"
    sleep "${UPC_BUILD_PAUSE:-2}" >/dev/null 2>&1 </dev/null 9>&- &
    wait $! || true
  done
  wait "$pid" || status=$?
  pid=""
  tell "$count"
  [ ! -t 2 ] || echo >&2
  if [ "$status" -ne 0 ] || [ ! -x "$room/repository/crates/$crate/out/$crate" ]; then
    echo "$name: the program was not built: rt ended with status $status. What it said last:" >&2
    tail -n 5 "$log" | sed "s/^/$name:   /" >&2
    echo "$name: all of it: $log" >&2
    exit 126
  fi
  for one in "${programs[@]}"; do
    [ -x "$room/repository/crates/$one/out/$one" ] || continue
    mkdir -p "$top/crates/$one/out"
    cp "$room/repository/crates/$one/out/$one" "$top/crates/$one/out/$one.new"
    touch -r "$room/begun" "$top/crates/$one/out/$one.new"
    mv "$top/crates/$one/out/$one.new" "$top/crates/$one/out/$one"
  done
  trap - EXIT INT TERM HUP PIPE
  rm -rf "$room"
  exec 9>&-
}
