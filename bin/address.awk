# Addresses as people write them, in place of the words of the replay text: a.b.c.d:port for ip × 65536 + port, and RFC 5952's text in brackets with its port
# for HIGH.LOW.PORT. Numbers of 64 bits are more than awk can count to, so they are taken apart digit by digit.
# number(TEXT) is the word of a canonical text, spelled(WORD) the text of a word in range; whatever else comes stays as it is.

# A decimal number divided by 65536; `left` is what is left.
function divided(n, i, q) {
  left = 0
  q = ""
  for (i = 1; i <= length(n); i++) {
    left = left * 10 + substr(n, i, 1)
    q = q int(left / 65536)
    left = left % 65536
  }
  sub(/^0+/, "", q)
  return q == "" ? "0" : q
}

# A decimal number times 65536, and so much more.
function times(n, more, i, product) {
  product = ""
  for (i = length(n); i >= 1; i--) {
    more += substr(n, i, 1) * 65536
    product = more % 10 product
    more = int(more / 10)
  }
  product = more product
  sub(/^0+/, "", product)
  return product == "" ? "0" : product
}

function is_number(n) { return n ~ /^(0|[1-9][0-9]*)$/ }
function is_wide(n) { return is_number(n) && (length(n) < 20 || length(n) == 20 && n "" <= "18446744073709551615") }
function is_port(n) { return is_number(n) && length(n) <= 5 && n + 0 <= 65535 }

# Four groups of 16 bits of a number, in `group` from place p + 1 on.
function take_groups(n, p, i) {
  for (i = 4; i >= 1; i--) {
    n = divided(n)
    group[p + i] = left
  }
}

# Groups from place `from` to `to` with colons between them.
function joined(from, to, i, out) {
  out = ""
  for (i = from; i <= to; i++) out = out (i > from ? ":" : "") sprintf("%x", group[i])
  return out
}

# The text of the groups: the first of the longest runs of two zeros or more is left out.
function six(i, run, longest, place) {
  if (!(group[1] || group[2] || group[3] || group[4] || group[5]) && group[6] == 65535)
    return "::ffff:" int(group[7] / 256) "." group[7] % 256 "." int(group[8] / 256) "." group[8] % 256
  run = longest = 0
  for (i = 1; i <= 8; i++) {
    run = group[i] ? 0 : run + 1
    if (run > longest) { longest = run; place = i - run + 1 }
  }
  if (longest < 2) return joined(1, 8)
  return joined(1, place - 1) "::" joined(place + longest, 8)
}

function spelled(word, part, n, ip) {
  n = split(word, part, ".")
  if (n == 1 && is_number(word) && length(word) <= 15 && word + 0 < 281474976710656) {
    ip = (word - word % 65536) / 65536
    return int(ip / 16777216) "." int(ip / 65536) % 256 "." int(ip / 256) % 256 "." ip % 256 ":" word % 65536
  }
  if (n != 3 || !is_wide(part[1]) || !is_wide(part[2]) || !is_port(part[3])) return word
  take_groups(part[1], 0)
  take_groups(part[2], 4)
  return "[" six() "]:" part[3]
}

function value(digits, i, n) {
  n = 0
  for (i = 1; i <= length(digits); i++) n = n * 16 + index("0123456789abcdef", substr(digits, i, 1)) - 1
  return n
}

# The groups of a text, guessed: whoever writes them again sees whether it was canonical.
function guess(ip, halves, before, behind, n, m, i, part) {
  if (ip ~ /\./) {
    sub(/^.*:/, "", ip)
    split(ip, part, ".")
    for (i = 1; i <= 5; i++) group[i] = 0
    group[6] = 65535
    group[7] = part[1] * 256 + part[2]
    group[8] = part[3] * 256 + part[4]
    return
  }
  for (i = 1; i <= 8; i++) group[i] = 0
  split(ip, halves, "::")
  n = split(halves[1], before, ":")
  for (i = 1; i <= n && i <= 8; i++) group[i] = value(before[i])
  m = split(halves[2], behind, ":")
  for (i = 1; i <= m && i <= 8; i++) group[8 - m + i] = value(behind[i])
}

function number(given, part, n, i, high, low) {
  if (substr(given, 1, 1) == "[") {
    n = index(given, "]")
    guess(substr(given, 2, n - 2))
    high = low = "0"
    for (i = 1; i <= 4; i++) { high = times(high, group[i]); low = times(low, group[4 + i]) }
    part[1] = high "." low "." substr(given, n + 2)
    return spelled(part[1]) == given ? part[1] : given
  }
  n = split(given, part, /[.:]/)
  if (n != 5) return given
  for (i = 1; i <= 4; i++) if (!is_port(part[i]) || part[i] > 255) return given
  if (!is_port(part[5])) return given
  return sprintf("%.0f", (((part[1] * 256 + part[2]) * 256 + part[3]) * 256 + part[4]) * 65536 + part[5])
}

# Every text of an address in a line as its word.
function numbered(rest, line) {
  line = ""
  while (match(rest, /\[[0-9a-f:.]+\]:[0-9]+|[0-9]+\.[0-9]+\.[0-9]+\.[0-9]+:[0-9]+/)) {
    line = line substr(rest, 1, RSTART - 1) number(substr(rest, RSTART, RLENGTH))
    rest = substr(rest, RSTART + RLENGTH)
  }
  return line rest
}
