# Items before and after, side by side (`DURATION WORD DURATION WORD`): one word differs, that of a note, by the gate time's `steps`. Words are
# compared as text, since 0e380158 would be a number to awk.
function value_of(digits,    value, at) {
  for (at = 1; at <= length(digits); at++) value = 16 * value + index("0123456789abcdef", substr(digits, at, 1)) - 1
  return value
}

NF != 4 || $1 != $3 { wrong++ }
$2 "" != $4 "" {
  changed++
  if (value_of($2) < 2 ^ 27 || value_of($2) >= 2 ^ 28 || value_of($4) != value_of($2) + 4 * steps) wrong++
}
END { exit !(changed == 1 && !wrong) }
