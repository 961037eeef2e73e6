# What bin/replay and bin/audit share: how a program is built, started and heard to its end. Sourced; `name` names the command, `house` the folder above.

# One clear line, and exit code 2.
wrong() {
  echo "$name: $*" >&2
  exit 2
}

# How many crates a program stands on, itself included.
crates_below() {
  awk -v want="$1" '
    /^[a-z]/ { crate = $1; sub(":", "", crate); for (i = 2; i <= NF; i++) uses[crate, i - 1] = $i; count[crate] = NF - 1; known[crate] = 1 }
    function below(c, i) { if ((c in seen) || !(c in known)) return; seen[c] = 1; n++; for (i = 1; i <= count[c]; i++) below(uses[c, i]) }
    END { below(want); print n }' "$house/crates.txt"
}

# Program $1 stands at $2, proved and built first where that has not been done. Sets `runner`.
prepare() {
  local program=$2 crates
  command -v awk >/dev/null || wrong "awk is not on the PATH"
  if [ ! -e "$program" ]; then
    command -v rt >/dev/null || wrong "the program $1 is not built, and the Rattle kit's command rt is not on the PATH"
    crates=$(crates_below "$1")
    echo "$name: the first run proves and builds the program: $crates crates, some minutes" >&2
    # `rt run` also starts what it has built, here on no input.
    (cd "$house/crates/$1" && rt run </dev/null) 2>&1 | awk -v name="$name" -v all="$crates" -v want="$1" '
      /^crate [a-z0-9_]+: / { crate = $2; sub(":", "", crate) }
      /^logic=proved/ { printf "%s: crate %d of %d: %s\n", name, ++n, all, crate; fflush(); if (crate == want) proved = 1; next }
      { last = $0 }
      END { if (!proved) print last }' >&2
    [ -e "$program" ] || wrong "the program $1 could not be built: 'rt run' in crates/$1 says why"
  fi
  runner=("$program")
}

# Standard input and output are there, and the input is no directory.
check_streams() {
  { : <&0; } 2>/dev/null || wrong "standard input is closed"
  { : >&1; } 2>/dev/null || wrong "standard output is closed"
  [ ! -d /dev/stdin ] || wrong "standard input is a directory"
}

# Hears what a program says on standard error, and in the end the exit codes of the pipeline: 1 where there were malformed lines, 2 where the run was not whole.
conclude() {
  local line code=0 watched= counts= why=
  while IFS= read -r line; do
    case $line in
      *' lines so far') printf '\r%s: %s' "$name" "$line" >&2; watched=1 ;;
      'codes '*[1-9]*) why="the output was lost or the run was broken off (exit codes ${line#codes })" ;;
      'codes '*) ;;
      'the input cannot be read') why=$line ;;
      *' malformed') counts=$line ;;
      'exit 1') code=1 ;;
      'exit 2') code=2 ;;
      *) printf '%s\n' "$line" >&2 ;;
    esac
  done
  [ -z "$watched" ] || printf '\r\033[K' >&2
  [ -z "$why" ] || wrong "$why"
  case $counts in
    '') ;;
    *', 0 malformed') echo "$name: $counts" >&2 ;;
    *) echo "$name: $counts" >&2; [ $code = 2 ] || code=1 ;;
  esac
  return $code
}
