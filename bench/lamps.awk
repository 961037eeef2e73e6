# Writes the script that the reading of the lamps is measured by (docs/REPLAY.md): lists of 8, 32 and 64, and then calls that are not due.
# usage: awk -f bench/lamps.awk
BEGIN {
  size_count = split("8 32 64", sizes, " ")
  for (s = 1; s <= size_count; s++) {
    print "new 10 10 10 10 3 3 6 1169 1 0 0"
    for (i = 2; i <= sizes[s]; i++) print "add " i " 0 | " i * 7919
    print "#! lamps " sizes[s]
    for (i = 1; i <= 1001; i++) print "timer 5"
  }
}
