# What the second program answers to a read, as examples/rows.c prints it; of a refusal its number and place.
function byte_of(digits) {
  return 16 * (index("0123456789abcdef", substr(digits, 1, 1)) - 1) + index("0123456789abcdef", substr(digits, 2, 1)) - 1
}

function id_of(digits,    text, at, byte) {
  for (at = 1; at < 8; at += 2) {
    byte = byte_of(substr(digits, at, 2))
    text = text (32 < byte && byte < 127 && byte != 92 ? sprintf("%c", byte) : "\\x" substr(digits, at, 2))
  }
  return text
}

/^refused/ { print $1, $2, "at", $3 ":" }
/^rows/ { print "row id place size container"; end = "check code " $4 ", " ($6 == "yes" ? "as in the file" : "not the one in the file") }
NF == 4 { print row++, id_of($1), $2, $3, $4 }
/^--/ && end { print end }
