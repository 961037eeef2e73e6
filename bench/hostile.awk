# Writes datagrams that somebody means ill with, of growing length, each after a remark `#! KIND BYTES 0`: unknown fields alone, the same
# record over and over, and unknown fields four levels deep.
BEGIN {
  for (bytes = 1000; bytes <= 32000; bytes *= 2) {
    datagram("unknown", bytes, repeated("2000", bytes / 2))
    datagram("repeated", bytes, within("0a", repeated("1a00", (bytes - 4) / 2)))
    datagram("nested", bytes, within("0a", within("1a", within("0a", repeated("2000", (bytes - 12) / 2)))))
  }
}

function datagram(kind, bytes, digits) {
  # Once before it counts.
  print "read 64 " digits
  print "#! " kind " " bytes " 0"
  print "read 64 " digits
}

function repeated(digits, many,    i, text) {
  for (i = 0; i < many; i++) text = text digits
  return text
}

# A field with its length, as a varint of three bytes.
function within(key, digits,    length_) {
  length_ = length(digits) / 2
  return key sprintf("%02x%02x%02x", length_ % 128 + 128, int(length_ / 128) % 128 + 128, int(length_ / 16384)) digits
}
