# The exported structs and functions of crates/smaf_c/src as C declares them, one to a line.
BEGIN {
  c["u8"] = "uint8_t"; c["u16"] = "uint16_t"; c["u32"] = "uint32_t"; c["u64"] = "uint64_t"
  c["i32"] = "int32_t"; c["usize"] = "size_t"; c["bool"] = "bool"
}

# ReadReply is `struct smaf_read_reply`.
function reply(type) {
  sub(/Reply$/, "", type)
  return "struct smaf_" tolower(type) "_reply"
}

# A parameter: a slice is a pointer, and behind it a length.
function parameter(text,    name, type, constant) {
  name = text
  sub(/:.*/, "", name)
  type = text
  sub(/.*: /, "", type)
  if (type !~ /\[/) return c[type] " " name
  constant = type ~ /&mut/ ? "" : "const "
  gsub(/&mut |[&\[\]]/, "", type)
  return constant c[type] " *" name ", size_t " name "_length"
}

function declared(text,    name, result, list, parts, count, i) {
  name = text
  sub(/.* fn /, "", name)
  sub(/\(.*/, "", name)
  result = text
  sub(/.*-> /, "", result)
  sub(/^[^(]*\( */, "", text)
  sub(/,? *\) ->.*/, "", text)
  count = split(text, parts, /, */)
  for (i = 1; i <= count; i++) list = list (i > 1 ? ", " : "") parameter(parts[i])
  return (result in c ? c[result] : reply(result)) " " name "(" list ");"
}

/^pub struct / { fields = reply($3) " {"; next }
/^}/ && fields { print fields " };"; fields = "" }
fields { gsub(/[:,]/, ""); fields = fields " " c[$3] " " $2 ";" }
/^pub extern / { open = 1; signature = "" }
open { sub(/^ +/, " "); signature = signature $0 }
open && /->/ { print declared(signature); open = 0 }
