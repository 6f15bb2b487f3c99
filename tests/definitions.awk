# Turns cases and answers into antt: standard input has the bytes of a row of cases, one number a line; the file named by ANSWERS has the
# answers to them. Writes files of LOT cases each to FOLDER, each a theorem that the definitions give the same answers, and prints how
# many cases there are. Cases with a buffer over LARGEST bytes are left out.
function byte() { if ((getline line) <= 0) return -1; return line + 0 }
function number(   n, k) { n = 0; for (k = 0; k < 4; k++) n = n * 256 + byte(); return sprintf("%.0f", n) }
function hex(text,   n, k) { n = 0; for (k = 1; k <= length(text); k++) n = n * 16 + index("0123456789abcdef", substr(text, k, 1)) - 1; return sprintf("%.0f", n) }
function list(text) { return "(" text "[])" }
function answer(op,   text, told, lines, k) {
  getline text < ANSWERS
  split(text, word, " ")
  if (word[1] == "refused") told = "0 ∷ " word[2] " ∷ " word[3] " ∷ "
  else if (word[1] == "pitch") told = "4 ∷ " (word[2] < 0 ? "1 ∷ " (-word[2]) : "0 ∷ " word[2]) " ∷ "
  else if (word[1] == "rows" && word[3] == "code") told = "1 ∷ " hex(word[4]) " ∷ " (word[6] == "yes" ? 1 : 0) " ∷ " rows(word[2])
  else if (word[1] == "rows" && word[3] == "end") told = "2 ∷ " word[4] " ∷ " messages(word[2])
  else if (word[1] == "rows" && op == "items") told = "6 ∷ " items(word[2])
  else if (word[1] == "rows") told = "7 ∷ " entries(word[2])
  else if (word[1] == "bytes") told = "3 ∷ " bytes()
  else told = "5 ∷ " listed()
  getline text < ANSWERS
  return told
}
function rows(count,   told, text) {
  told = ""
  while (count-- > 0) { getline text < ANSWERS; split(text, word, " "); told = told hex(word[1]) " ∷ " word[2] " ∷ " word[3] " ∷ " word[4] " ∷ " }
  return told
}
function messages(count,   steps, words, text) {
  steps = ""; words = ""
  while (count-- > 0) { getline text < ANSWERS; split(text, word, " "); steps = steps word[1] " ∷ "; words = words hex(word[2]) " ∷ " }
  return steps words
}
function items(count,   told, text) {
  told = ""
  while (count-- > 0) { getline text < ANSWERS; split(text, word, " "); told = told word[1] " ∷ " hex(word[2]) " ∷ " }
  return told
}
function entries(count,   told, letters, text) {
  told = ""; letters = ""
  while (count-- > 0) {
    getline text < ANSWERS; split(text, word, " ")
    told = told word[1] " ∷ " hex(word[2]) " ∷ " word[3] " ∷ " word[4] " ∷ "
    if (word[1] == 3) letters = bytes()
  }
  return told letters
}
function bytes(   told, text, k) {
  told = ""
  getline text < ANSWERS
  for (k = 1; k < length(text); k += 2) told = told hex(substr(text, k, 2)) " ∷ "
  return told
}
function listed(   told, text) {
  told = ""
  while ((getline text < ANSWERS) > 0) {
    split(text, word, " ")
    if (word[1] == "end") return word[2] " ∷ " word[3] " ∷ " told
    told = told word[1] " ∷ " word[2] " ∷ " (word[3] == "-" ? 4 : word[3]) " ∷ " kind[word[4]] " ∷ "
    told = told (word[5] < 0 ? "1 ∷ " (-word[5]) : "0 ∷ " word[5]) " ∷ " word[6] " ∷ "
  }
}
function finish() {
  if (in_lot == 0) return
  file = FOLDER "/Lot" lots ".antt"
  printf "%s", HEAD > file
  printf "cases : List Case\ncases =\n%s    []\n\nanswers : List (List ℕ)\nanswers =\n%s    []\n\n", cases, answers > file
  printf "agree : map told cases ≡ answers\nunfolding cases answers told %s\nagree = refl\n", OPEN > file
  close(file)
  lots++; in_lot = 0; cases = ""; answers = ""
}
# the number in so many bytes of the case
function taken(width,   n) { n = 0; while (width-- > 0) n = n * 256 + case_byte[at++]; return n }
function few(count,   text) { text = ""; while (count-- > 0) text = text case_byte[at++] " ∷ "; return text }
# a table of a case: items as pairs of numbers
function pairs(count,   text) { text = ""; while (count-- > 0) { text = text sprintf("%.0f ∷ ", taken(4)); text = text sprintf("%.0f ∷ ", taken(4)) } return text }
# a description of a file as the two tables that the definitions take
function tables(   count, entry_count, item_count, letter_count, size, row_numbers, letters, entry_kind, from, numbers, whole, pair, head) {
  at = 0
  numbers = ""; whole = few(5); count = taken(1)
  while (count-- > 0) {
    head = few(7); row_numbers = ""; letters = ""; letter_count = -1
    entry_count = taken(2); size = entry_count
    while (size-- > 0) {
      entry_kind = taken(1); row_numbers = row_numbers entry_kind " ∷ " taken(1) " ∷ "; from = taken(4)
      row_numbers = row_numbers sprintf("%.0f ∷ ", from); row_numbers = row_numbers sprintf("%.0f ∷ ", taken(4))
      if (entry_kind == 3 && letter_count < 0) { letter_count = from; letters = few(from) } else if (entry_kind == 3) few(from)
    }
    item_count = taken(4); pair = pairs(item_count); size = taken(4)
    numbers = numbers entry_count " ∷ " item_count " ∷ " (letter_count < 0 ? 0 : letter_count) " ∷ " size " ∷ " row_numbers pair
    whole = whole head letters few(size)
  }
  return list(numbers) " " list(whole)
}
function given_items(   voice, count, text) {
  at = 0
  voice = taken(1) == 0 ? "Score" : "Pcm"; count = taken(4); text = pairs(count)
  return voice " " list(text) " " list(few(taken(4)))
}
BEGIN {
  split("note wave program bank octaveshift modulation pitchbend volume pan expression - - - exclusive", names, " ")
  for (k in names) kind[names[k]] = k
  operation[114] = "read"; operation[112] = "play"; operation[102] = "flatten"; operation[116] = "pitch"; operation[108] = "list"
  operation[119] = "write"; operation[98] = "write_items"; operation[109] = "items"; operation[115] = "entries"
  HEAD = ""; while ((getline line < HEADER) > 0) HEAD = HEAD line "\n"
  lots = 0; in_lot = 0; count = 0
  while ((op = byte()) >= 0) {
    n = number(); row = number(); room = number(); size = number() + 0
    buffer = ""
    for (k = 0; k < size; k++) { case_byte[k] = byte(); buffer = buffer case_byte[k] " ∷ " }
    said = answer(operation[op])
    if (size > LARGEST) continue
    given = operation[op] == "write" ? room " " tables() : operation[op] == "write_items" ? room " " given_items() : n " " row " " room " " list(buffer)
    cases = cases "    " operation[op] " " given " ∷\n"
    answers = answers "    " list(said) " ∷\n"
    count++
    if (++in_lot == LOT) finish()
  }
  finish()
  print count, lots
}
