# A script with its addresses as texts (mode=in), and answers with theirs (mode=out). Behind address.awk.
# `LETTER:FROM:SUBJECT:NUMBER`, and behind it whatever stands there.
function record(word, part) {
  if (split(word, part, ":") != 4) return word
  return part[1] ":" spelled(part[2]) ":" spelled(part[3]) ":" part[4]
}

# An address in front of a colon.
function front(word, at) {
  at = index(word, ":")
  return at ? spelled(substr(word, 1, at - 1)) substr(word, at) : word
}

mode == "in" { print /^#/ ? $0 : numbered($0); next }

# A message: its sender, whom else it names, and its records from field f on.
function message(f, i) {
  $(f) = spelled($(f))
  $(f + 1) = spelled($(f + 1))
  for (i = f + 2; i <= NF; i++) $i = record($i)
}

$1 == ">" { $2 = spelled($2); message(4) }
$1 == "<" && ($2 == "ping" || $2 == "req" || $2 == "ack") { message(3) }
$1 == "!" { $2 = record($2) }
$1 == "@" { for (i = 3; i <= NF; i++) $i = front($i) }
$1 == "+" || $1 == "x" { for (i = 2; i <= NF; i++) $i = record($i) }
$1 == "t" { for (i = 2; i <= NF; i++) $i = front($i) }
$1 == "w" && $2 != "ping" { $3 = spelled($3) }
{ print }
