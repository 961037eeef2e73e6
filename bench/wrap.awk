# Gives each measured function of an LLVM module a wrapper under its name, which goes through the host before and after it.
# usage: awk -v symbols="message::receive detection::step" -f bench/wrap.awk module.ll
BEGIN {
  wanted = split(symbols, names, " ")
}

# The name is the first quoted word of a definition; the parameters end at the last bracket.
/^define / {
  for (i = 1; i <= wanted; i++) {
    at = index($0, "@\"" names[i] "\"(")
    if (at) {
      wrap(names[i], at)
      next
    }
  }
}

{ print }

END {
  if (made != wanted) {
    print "bench: " wanted " functions are to be measured, the module has " made + 0 > "/dev/stderr"
    exit 1
  }
  print "declare void @bench_enter()"
  print "declare void @bench_leave()"
  for (i = 1; i <= made; i++) printf "%s", wrappers[i]
}

function wrap(name, at,    type, rest, end, parameters, call) {
  type = substr($0, 1, at - 1)
  sub(/^define (internal |private )?/, "", type)
  rest = substr($0, at + length(name) + 3)
  end = match(rest, /\)[^)]*\{$/)
  parameters = substr(rest, 2, end - 2)
  # A parameter of a definition is written as the argument of a call is.
  call = "call " type "@\"" name ".measured\"(" parameters ")"
  wrappers[++made] = "define internal " type "@\"" name "\"(" parameters ") noinline nounwind {\n  call void @bench_enter()\n" \
    (type ~ /^void / ? "  " call "\n  call void @bench_leave()\n  ret void\n" \
      : "  %result = " call "\n  call void @bench_leave()\n  ret " bare(type) "%result\n") "}\n"
  print "define internal " type "@\"" name ".measured\"(" parameters ") noinline " substr(rest, end + 2)
}

# A type without the attributes of a result.
function bare(type) {
  gsub(/(noundef|zeroext|signext) /, "", type)
  return type
}
