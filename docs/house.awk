# Draws the house: each crate over those that it stands on. A line that follows from two others is left out.
# usage: awk -f docs/house.awk crates.txt >docs/house.svg
BEGIN { box_width = 118; box_height = 26; gap_x = 14; gap_y = 56; margin = 16 }

/^[a-z]/ {
    name = substr($1, 1, length($1) - 1)
    crates[++count] = name
    for (i = 2; i <= NF; i++) needs[name, $i] = 1
}

# The level of a crate: one above the highest that it stands on.
function level_of(name,    i, below) {
    if (name in level) return level[name]
    level[name] = 0
    for (i = 1; i <= count; i++)
        if ((name, crates[i]) in needs) {
            below = level_of(crates[i])
            if (below >= level[name]) level[name] = below + 1
        }
    return level[name]
}

function take_place(name) {
    place[name] = in_level[level_of(name)]++
    if (in_level[level[name]] > widest) widest = in_level[level[name]]
    if (level[name] > top) top = level[name]
}

# Whether a line from a to b follows from two others.
function follows(a, b,    i) {
    for (i = 1; i <= count; i++)
        if (((a, crates[i]) in needs) && ((crates[i], b) in needs)) return 1
    return 0
}

function left(name) {
    return margin + (place[name] + (widest - in_level[level[name]]) / 2) * (box_width + gap_x)
}

function upper(name) {
    return margin + (top - level[name]) * (box_height + gap_y)
}

function line(a, b) {
    printf "<line x1=\"%g\" y1=\"%g\" x2=\"%g\" y2=\"%g\"/>\n", left(a) + box_width / 2, upper(a) + box_height, left(b) + box_width / 2, upper(b)
}

function kind(name) {
    if (name == "model") return "#f3d9a4"
    if (name ~ /^laws/ || name ~ /^(worked|history|probing|promises)$/) return "#d5e8d4"
    if (name ~ /^(words|text|report|show|replay.*|unsound)$/) return "#e6e6e6"
    return "#cfe2f3"
}

function box(name) {
    printf "<rect x=\"%g\" y=\"%g\" width=\"%d\" height=\"%d\" rx=\"4\" fill=\"%s\"/>\n", left(name), upper(name), box_width, box_height, kind(name)
    printf "<text x=\"%g\" y=\"%g\">%s</text>\n", left(name) + box_width / 2, upper(name) + 17, name
}

END {
    for (i = 1; i <= count; i++) take_place(crates[i])
    printf "<svg xmlns=\"http://www.w3.org/2000/svg\" width=\"%d\" height=\"%d\" font-family=\"sans-serif\" font-size=\"12\" text-anchor=\"middle\">\n", 2 * margin + widest * (box_width + gap_x) - gap_x, 2 * margin + top * (box_height + gap_y) + box_height
    print "<rect width=\"100%\" height=\"100%\" fill=\"white\"/>"
    print "<g stroke=\"#999999\">"
    for (i = 1; i <= count; i++)
        for (j = 1; j <= count; j++)
            if (((crates[i], crates[j]) in needs) && !follows(crates[i], crates[j])) line(crates[i], crates[j])
    print "</g>\n<g stroke=\"none\">"
    for (i = 1; i <= count; i++) box(crates[i])
    print "</g>\n</svg>"
}
