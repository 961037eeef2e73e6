# The largest stack of each kind of call, from lines that begin with the kind and end with the bytes; and the largest of all.
{
  if (!($1 in largest)) order[++kinds] = $1
  if ($NF > largest[$1]) largest[$1] = $NF
  if ($NF > most) most = $NF
}

END {
  print "| stack, " program " | KB |"
  print "|---|---|"
  for (i = 1; i <= kinds; i++) printf "| %s | %.1f |\n", words[order[i]], largest[order[i]] / 1024
  printf "| the largest of %d calls | %.1f |\n\n", NR, most / 1024
}
