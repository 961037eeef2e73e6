# Writes the script that saving and restoring are measured by (docs/REPLAY.md): lists of 8, 32 and 64, saved and restored.
# usage: awk -f bench/saved.awk
BEGIN {
  size_count = split("8 32 64", sizes, " ")
  for (s = 1; s <= size_count; s++) {
    image = "4d42520001" sprintf("%016x", 1) sprintf("%02x", sizes[s])
    for (i = 1; i <= sizes[s]; i++) image = image sprintf("%016x", i) "00" sprintf("%016x", 0)
    image = image "00"
    print "#! restore " sizes[s]
    for (i = 1; i <= 1001; i++) print "restore 10 10 10 10 3 3 6 1373 0 " image
    print "#! save " sizes[s]
    for (i = 1; i <= 1001; i++) print "save 1103"
  }
}
