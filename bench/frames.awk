# The frames of 4 KB and more of the functions that measured calls are made of, with the rows of 1 KB and more that stand in them.
# usage: awk -f bench/frames.awk MODULE.layout MODULE.su       clang's remarks on the layout of frames, then its file of stack use
function is_of_the_program(name) {
  return name ~ /^(main|replayer|report|show|text)/
}

FILENAME ~ /layout$/ && /^Function: / { name = $2 }

FILENAME ~ /layout$/ && match($0, /Size: [0-9]+/) {
  size = int(substr($0, RSTART + 6, RLENGTH - 6) / 1024 * 10 + 0.5) / 10
  if (size >= 1) {
    if (!((name, size) in rows)) sizes[name] = sizes[name] " " size
    rows[name, size]++
  }
}

FILENAME ~ /su$/ {
  split($0, field, "\t")
  name = field[1]
  sub(/^.*\.ll:/, "", name)
  if (field[2] >= 4096 && !is_of_the_program(name)) printf "%8.1f KB  %s:%s\n", field[2] / 1024, name, contents(name)
}

function contents(name,    count, each, i, text) {
  count = split(sizes[name], each, " ")
  for (i = 1; i <= count; i++) text = text (i > 1 ? "," : "") " " rows[name, each[i]] " × " each[i]
  return text
}
