# What a refusal means, for the person with the byte editor: a sentence for each number, and the bytes around a place. To be sourced.

meaning_of() { # meaning_of NUMBER: what it says of the byte at its place, or of the whole file
  case $1 in
    1) echo "the file is over 65,536 bytes" ;;
    2) echo "this is no SMAF file: it does not begin with MMMD, or is under 10 bytes" ;;
    3) echo "the size that stands here is not the file's length less 8" ;;
    4) echo "the header of a chunk is cut short here, or its size runs past the list that it stands in" ;;
    5) echo "the first chunk is missing, or is not CNTI, or has under 5 bytes" ;;
    6) echo "the ID of this chunk stood before in the same list" ;;
    7) echo "the list of chunks ends here without a track" ;;
    8) echo "this track is too short, or of an unknown format, sequence type or time base" ;;
    9) echo "this chunk is not allowed here, or, if it is a track, one that it needs is missing" ;;
    10) echo "a setup is empty, or this message of it is not a whole exclusive" ;;
    11) echo "a sequence is empty: its first item should stand here" ;;
    12) echo "a seek body is empty, or this entry of it is malformed, out of order or there twice" ;;
    13) echo "this entry names a place where no item begins, or past the order list, or starts after its stop" ;;
    14) echo "this letter of the order list has no phrase" ;;
    15) echo "the file has over 4,096 chunks, or this track plays over 4,096 messages: more than the listing takes" ;;
    16) echo "no track of this file can be read" ;;
    17) echo "this track has phrases and no order list (SL)" ;;
    18) echo "the plain form of this track is over 65,536 bytes, or over the room for it" ;;
    19) echo "this is not the first byte of a note, or its octave shift is reserved" ;;
    20) echo "a sequence ends right before this byte, and its last item needs more bytes" ;;
    21) echo "this note or wave number is not allowed, or this gate time is 0" ;;
    22) echo "this event or control is reserved, or a PCM track does not have it" ;;
    23) echo "this is a reserved value, a second duration or gate byte over 7F, or an exclusive's size under 3 or last byte other than F7" ;;
    *) echo "an unknown refusal, number $1" ;;
  esac
}

bytes_around() { # bytes_around FILE PLACE: sixteen bytes in hex, the one at the place in brackets; fewer where the file has fewer
  local size from byte at text
  size=$(($(wc -c <"$1")))
  from=$(($2 - 8))
  [ "$from" -le $((size - 16)) ] || from=$((size - 16))
  [ "$from" -ge 0 ] || from=0
  at=$from
  text="from byte $from:"
  for byte in $(od -A n -t x1 -v -j "$from" -N 16 <"$1"); do
    [ "$at" -eq "$2" ] && byte="[$byte]"
    text="$text $byte"
    at=$((at + 1))
  done
  [ "$2" -lt "$size" ] || text="$text [the file ends here]"
  echo "$text"
}

explain() { # explain FILE NUMBER PLACE; a pipe is used up by now, and its bytes are not shown
  printf 'byte %d (hex %x): %s\n' "$3" "$3" "$(meaning_of "$2")"
  [ ! -f "$1" ] || bytes_around "$1" "$3"
}
