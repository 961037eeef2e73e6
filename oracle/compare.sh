# What oracle/gate, oracle/long and bench/run share: the same script through the oracle and another program, byte for byte.
# Sourced from the top of the repository; `replay` names the other program.
folder=target/oracle
oracle=$folder/oracle

# Each seed gives this many nodes and calls, or this many lines of bytes.
nodes=50
calls=10000
lines=20000

# Or this many lines of 130 addresses of IPv6.
texts=1000

# So many seeds at a time.
jobs=${JOBS:-2}

fail() {
  echo "oracle: $*" >&2
  exit 1
}

# Answers $1 and $2 to script $3 must be the same bytes; $4 says what was compared.
same_answers() {
  local line
  cmp -s "$1" "$2" && return
  line=$({ cmp "$1" "$2" 2>/dev/null || true; } | sed -n 's/.* line \([0-9]*\).*/\1/p')
  echo "first difference at line ${line:-after the end of the shorter} of the answers:" >&2
  [ -z "$line" ] || for file in "$1" "$2"; do
    echo "$file: $(sed -n "${line}p" "$file" | cut -c1-300)" >&2
  done
  fail "$4: the answers to $3 differ"
}

# Script $1 through both, whose answers stay beside it; $2 says which one it is.
answer_same() {
  "$oracle" run <"$1" >"$1.oracle"
  # Exit code 1: the script has malformed lines, as some are meant to have.
  "$replay" <"$1" >"$1.replay" 2>"$1.said" || [ $? = 1 ] || { cat "$1.said" >&2; fail "$replay failed on $1 ($2)"; }
  rm -f "$1.said"
  same_answers "$1.oracle" "$1.replay" "$1" "oracle and replay, $2"
}

# The same for a script that is done with then.
compare_one() {
  answer_same "$@"
  rm "$1" "$1.oracle" "$1.replay"
}

fresh_seed() {
  od -An -N4 -tu4 /dev/urandom | tr -d ' '
}

# Calls on seed $1, as far as they are inside the domain.
compare_seed() {
  local script=$folder/fresh.$1 inside
  "$oracle" gen "$1" $nodes $calls 2>/dev/null | "$oracle" inside >"$script"
  inside=$(grep -cE '^(add|ping|req|ack|step|timer) ' "$script")
  answer_same "$script" "seed $1 (oracle gen $1 $nodes $calls)"
  carry_heard "$script"
  carry_sent "$script.replay"
  rm "$script" "$script.oracle" "$script.replay"
  echo "seed $1: $inside of $calls calls inside the domain, no difference, their messages through bytes both ways"
}

# Bytes read and written on seed $1.
compare_bytes() {
  local script=$folder/bytes.$1
  "$oracle" bytes "$1" $lines >"$script" 2>"$script.tally" ||
    { cat "$script.tally" >&2; fail "not everything comes up in oracle bytes $1 $lines"; }
  compare_one "$script" "seed $1 (oracle bytes $1 $lines)"
  rm "$script.tally"
  echo "seed $1: $lines lines of bytes, no difference"
}

# Texts and lengths of structured addresses of IPv6 on seed $1, written and then read.
compare_texts() {
  local script=$folder/addresses.$1
  "$oracle" addresses "$1" $texts >"$script"
  answer_same "$script" "seed $1 (oracle addresses $1 $texts)"
  [ "$(grep -c '^<' "$script.oracle")" = $texts ] || fail "not every line of oracle addresses $1 $texts was written"
  sed 's/^< /read 64 /' "$script.oracle" >"$script.read"
  compare_one "$script.read" "what was written on seed $1 (oracle addresses $1 $texts)"
  rm "$script" "$script.oracle" "$script.replay"
  echo "seed $1: $((texts * 130)) addresses of IPv6 written and read, no difference"
}

# What the calls of script $1 hear, as prost writes it, is read by the other program.
carry_heard() {
  grep -E '^(ping|req|ack) ' "$1" | sed 's/ |.*//' >"$1.heard"
  "$oracle" encode <"$1.heard" >"$1.read"
  "$replay" <"$1.read" | sed -n 's/^< //p' >"$1.back"
  same_answers "$1.heard" "$1.back" "$1" "what was heard and what was read of prost's bytes"
  rm "$1.heard" "$1.read" "$1.back"
}

# What answers $1 send, as the other program writes it, is read by prost.
carry_sent() {
  sed -n 's/^> [0-9]* //p' "$1" >"$1.sent"
  sed 's/^/write 65536 /' "$1.sent" | "$replay" | sed -n 's/^< //p' | "$oracle" decode >"$1.back"
  same_answers "$1.sent" "$1.back" "$1" "what was sent and what prost read of its bytes"
  rm "$1.sent" "$1.back"
}

# Calls on each of the seeds given.
compare_seeds() {
  each_seed compare_seed "$@"
}

# Comparison $1 on each of the seeds after it, `jobs` at a time.
each_seed() {
  local seed running=() comparison=$1
  shift
  for seed in "$@"; do
    "$comparison" "$seed" &
    running+=($!)
    [ ${#running[@]} -lt "$jobs" ] || { all_well "${running[@]}"; running=(); }
  done
  all_well "${running[@]}"
}

# Waits for processes; one that failed has said why.
all_well() {
  local process
  for process in "$@"; do wait "$process" || exit 1; done
}
