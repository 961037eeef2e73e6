# Makes of the facts that the program `audit` tells the lines that people read: every entry and departure with its cause.
# -v asked="ADDRESS .." whom to tell of, all where it is empty; -v older=1 also the death notices that removed nobody; -v dotted=1 addresses as texts. Behind address.awk;
# -v many=1 several histories, each behind a line `history FILE`, whose departures by notice are followed back.
function dots(a) { return dotted ? spelled(a) : a }

# numbers of up to 20 digits are compared as they are written
function below(a, b) { return length(a) != length(b) ? length(a) < length(b) : (a "") < (b "") }
function state(s) { return s == "a" ? "Alive" : s == "p" ? "Pending" : "Suspected" }
function event(r, part) {
  if (split(r, part, ":") != 4) return "nothing reported"
  return "reported " (part[1] == "j" ? "Joined " : "Deceased ") part[4] " of " dots(part[3])
}
function plural(k, one, more) { return k + 0 " " (k + 0 == 1 ? one : more) }
function wanted(a) { return asked == "" || (a in ask) }
function at(line) { return line ? "line " line : "no line of this history" }
# of a history's flaws the first twenty are told, the others counted
function note(text) {
  incomplete = 1
  if (++flaws <= 20) print "audit: " (file == "" ? "" : file ": ") text | "cat 1>&2"
}
function message() { return $9 " from " dots($10) }

# what asked a rule: for a record its number and from whom, for a timer its start and the lines before it
function cause(text, key, i) {
  if ($9 == "add") return "added by the host, given " $4
  if ($9 != "timer") {
    if ($11 == "sender") return message() ", the sender's own admission"
    return message() ", record " $11 " (" ($2 == "+" ? "Joined " : "Deceased ") $4 " from " dots($12) ")"
  }
  key = $3 ":" $4 ":" $13
  text = "timer of " dots($3) ", number " $4 ", started at tick " $13
  if (!(key in first)) return text ", by no step of this history"
  i = first[key]
  text = text " by the step of " at(started[key, i]) ", after the ping of " at(pinged[key, i]) " and the ping request of " at(requested[key, i])
  delete started[key, i]; delete pinged[key, i]; delete requested[key, i]
  if (i == last[key]) { delete first[key]; delete last[key] } else first[key] = i + 1
  return text
}

function why() {
  if (!$7) return "it is not listed"
  if ($9 == "timer" && $6 == "a") return "it is Alive"
  return "the number is below the held one"
}

function held() { return $7 ? "held " state($6) " " $5 : "not listed" }

# a history begins: what the one before it left is told and forgotten
function begin(name) {
  finish()
  file = name
  owner = ""
  split("", first); split("", last); split("", started); split("", pinged); split("", requested)
  split("", entries); split("", departures); split("", now); split("", mentioned)
  ping = request = probed = 0
  nodes = calls = whole = 0
}

# what is told of the addresses asked for: so much is kept of them, and of no others
function mention(a) { if (a in ask) mentioned[a] = 1 }

function finish(a, i) {
  if (flaws > 20) print "audit: " (file == "" ? "" : file ": ") "and " flaws - 20 " more lines like these" | "cat 1>&2"
  flaws = 0
  if (!whole || broken) return
  if (!calls) note("there is no call in it")
  for (i = 1; i <= asks; i++) {
    a = order[i]
    if (!(a in mentioned)) note(dots(a) " is named nowhere in this history")
    print dots(a) ": " plural(entries[a], "entry", "entries") ", " plural(departures[a], "departure", "departures") ", " ((a in now) ? "listed, " now[a] : "not listed")
  }
}

BEGIN {
  asks = split(asked, order, " ")
  for (i = 1; i <= asks; i++) ask[order[i]] = 1
  begin("")
}

$1 == "history" { begin(substr($0, 9)); print (n++ ? "\n" : "") "history " file; next }
$0 == "the input cannot be read" { print "audit: " (file == "" ? "" : file ": ") $0 | "cat 1>&2"; broken = 1; next }
{ line = $1 }
$1 == "." {
  calls = $4
  whole = 1
  if ($6) note($6 " of " $2 " lines are not of the form, what they did is not told")
  next
}
$2 == "?" { note("line " line " is not of the form"); next }
$2 == "!" { note("line " line ": the call was refused, with number " $3); next }
$2 == "0" { note("line " line ": there is no node to call"); next }
$2 == "w" { ping = request = probed = 0; next }
# a node begins
function node(what) {
  if (nodes++) {
    note("line " line " " what " another node: what follows is about that one")
    split("", entries); split("", departures); split("", now)
  }
  split("", first); split("", last)
  ping = request = probed = 0
  owner = $3
  owned[owner] = file
}

$2 == "r" { node("restores"); next }
$2 == "b" {
  split($3, part, ":")
  if (part[1] in ask) entries[part[1]] = 1
  mention(part[1])
  if (wanted(part[1])) print "line " line ": " dots(part[1]) " entered at number " part[3] ": listed in the saved list that the node of " dots(owner) " was restored from, " state(part[2])
  next
}
$2 == "n" {
  node("creates")
  if (owner in ask) entries[owner] = 1
  mention(owner)
  if (wanted(owner)) print "line " line ": " dots(owner) " entered at number " $4 ": the fresh node's own address"
  next
}
$2 == "p" { probed = $3; ping = line; request = 0; mention($3); next }
$2 == "q" { if (probed != $3) ping = 0; probed = $3; request = line; next }
$2 == "t" {
  key = $3 ":" $4 ":" $5
  if (!(key in first)) first[key] = last[key] = 1; else last[key]++
  started[key, last[key]] = line
  if (probed == $3) { pinged[key, last[key]] = ping; requested[key, last[key]] = request }
  next
}
$2 == "@" {
  split($3, part, ":")
  now[part[1]] = state(part[2]) " at number " part[3]
  mention(part[1])
  next
}
$2 == "+" {
  if ($3 in ask) entries[$3]++
  mention($3)
  text = cause()
  if (wanted($3)) print "line " line ": " dots($3) " entered at number " $8 ": " text "; " event($14)
  next
}
$2 == "-" {
  if ($3 in ask) departures[$3]++
  mention($3)
  text = cause()
  if (wanted($3)) print "line " line ": " dots($3) " left: " text "; " held() ", given " $4 "; " event($14)
  if (many) keep(text)
  next
}
$2 == "o" {
  text = cause()
  mention($3)
  if (older && wanted($3)) print "line " line ": " dots($3) (($7) ? " stayed: " : " was not there: ") text "; " held() ", given " $4 ": " why()
}

# a departure of one of several histories, to be followed back
function keep(text) {
  kept++
  gone[kept] = $3; at_owner[kept] = owner; at_file[kept] = file; at_line[kept] = line; by[kept] = $9; from[kept] = $12; given[kept] = $4; told[kept] = text
  found[owner, $3, $4] = kept
}

function follow(k, deep, source, key) {
  print sprintf("%" 2 * deep "s", "") dots(at_owner[k]) " (" at_file[k] ", line " at_line[k] "): " told[k]
  if (by[k] == "timer") { print sprintf("%" 2 * deep + 2 "s", "") "the chain ends here: this time-out came first"; return }
  source = from[k]
  key = source SUBSEP gone[k] SUBSEP given[k]
  if (!(source in owned)) { print sprintf("%" 2 * deep + 2 "s", "") "the recordings do not reach further: there is none of " dots(source); return }
  if (!(key in found)) { print sprintf("%" 2 * deep + 2 "s", "") "the recordings do not reach further: that of " dots(source) " has no departure at number " given[k]; return }
  if (key in seen) { print sprintf("%" 2 * deep + 2 "s", "") "the recordings lead back to " dots(source); return }
  seen[key] = 1
  follow(found[key], deep + 1)
}

END {
  finish()
  if (many) {
    for (k = 1; k <= kept; k++) if (wanted(gone[k]) && by[k] != "timer") {
      if (!chains++) print "\nwhere the notices came from"
      print dots(gone[k]) " left the list of " dots(at_owner[k]) ":"
      split("", seen)
      follow(k, 1)
    }
  }
  if (!whole && !broken) print "audit: the run was broken off" | "cat 1>&2"
  close("cat 1>&2")
  if (broken || !whole) exit 2
  if (incomplete) exit 1
}
