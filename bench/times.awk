# The tables of times, from lines `SIDE KIND MEMBERS ENTRIES NANOSECONDS`, SIDE port or rust: times, ratios and growth.
# `full` is the largest number of entries; between `half` and `full` the growth is taken, where `half` is given.
{
  if (!($2 in known)) order[++kinds] = $2
  known[$2] = 1
  nanoseconds[$1, $2, $3, $4] = $5
}

END {
  print "| call | heap entries | 8 members | 32 | 64 |"
  print "|---|---|---|---|---|"
  for (i = 1; i <= kinds; i++) {
    row(order[i], 0)
    row(order[i], full)
  }
  printf "\nratios from %.1f to %.1f\n\n", least, most
  if (half) growth_table()
}

function row(kind, entries) {
  printf "| %s | %s | %s | %s | %s |\n", words[kind], entries ? "2 × " entries : "none", cell(kind, 8, entries), cell(kind, 32, entries), cell(kind, 64, entries)
}

function cell(kind, members, entries,    port, rust, ratio) {
  port = nanoseconds["port", kind, members, entries]
  rust = nanoseconds["rust", kind, members, entries]
  ratio = port / rust
  if (!least || ratio < least) least = ratio
  if (ratio > most) most = ratio
  return sprintf("%.2f / %.2f = %.1f", port / 1000, rust / 1000, ratio)
}

function growth_table() {
  print "| growth in ns, port / Rust | a member more | an entry more |"
  print "|---|---|---|"
  for (i = 1; i <= kinds; i++)
    printf "| %s | %d / %d | %d / %d |\n", words[order[i]], rounded(by_member("port", order[i])), rounded(by_member("rust", order[i])), rounded(by_entry("port", order[i])), rounded(by_entry("rust", order[i]))
  print ""
}

# From 8 to 64 members, the heaps full.
function by_member(side, kind) {
  return (nanoseconds[side, kind, 64, full] - nanoseconds[side, kind, 8, full]) / 56
}

# From half to full, on both heaps, at 64 members.
function by_entry(side, kind) {
  return (nanoseconds[side, kind, 64, full] - nanoseconds[side, kind, 64, half]) / (2 * (full - half))
}

function rounded(number) {
  return number < 0 ? -int(0.5 - number) : int(number + 0.5)
}
