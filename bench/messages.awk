# Writes the messages whose datagrams are measured, as the words of docs/REPLAY.md: 17 bytes, 1,466 with 39 records, 1,507 with 57.
BEGIN {
  print "ping " peer(1) " -"
  text = "ping " peer(1) " -"
  for (i = 0; i < 39; i++) text = text " r:" peer(1) ":" peer(i < 34 ? 1 + i % 9 : 10 + i % 9) ":300"
  print text
  text = "ping 1 2"
  for (i = 0; i < 57; i++) text = text " j:" i % 10 ":" int(i / 10) ":0"
  print text
}

# 10.0.0.0 plus `place`, port 7000.
function peer(place) {
  return sprintf("%.0f", (167772160 + place) * 65536 + 7000)
}
