# From the rows that examples/rows.c prints, what to put a comma behind the first seek body: pieces of the file as they are (from, to) and what
# is put behind each, a size of four bytes, one more than it was, or the comma. The four bytes that a size takes the place of are left out.
function put_size(place, size) {
  print from, place + 4, size + 1
  from = place + 8
}

$2 == "MMMD" { put_size($3, $4) }
$2 ~ /^MTR/ && !done { track = $3; track_size = $4 }
$2 == "MspI" && !done {
  put_size(track, track_size)
  put_size($3, $4)
  print from, $3 + 8 + $4, ","
  done = 1
}
BEGIN { from = 0 }
