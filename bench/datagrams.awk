# The table of datagrams, from lines `SIDE KIND BYTES RECORDS NANOSECONDS`, SIDE port or rust.
{
  datagram = $2 " " $3 " " $4
  if (!(datagram in known)) order[++datagrams] = datagram
  known[datagram] = 1
  nanoseconds[$1, datagram] = $5
}

END {
  print "| datagram | bytes | records | port / Rust = ratio, µs | ns a byte, port / Rust |"
  print "|---|---|---|---|---|"
  for (i = 1; i <= datagrams; i++) {
    split(order[i], part, " ")
    port = nanoseconds["port", order[i]]
    rust = nanoseconds["rust", order[i]]
    printf "| %s | %d | %d | %.2f / %.2f = %.2f | %.2f / %.2f |\n", words[part[1]], part[2], part[3], port / 1000, rust / 1000, port / rust, port / part[2], rust / part[2]
  }
  print ""
}
