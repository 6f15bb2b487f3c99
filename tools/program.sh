# What the commands over a tune share: a file as their one argument, and a program that is proved and built where it is not there yet or is
# older than its sources. A command sets `command` (its own name) and `program` (the program's), then sources this. Exit status of a
# command: 0 where the file was accepted, 1 where it is refused or cannot be read, 2 for bad use, 3 where the program cannot be built.
home=$(cd "$(dirname "${BASH_SOURCE[0]}")/.." && pwd)
built=$home/crates/$program/out/$program

refuse() { # refuse WHY STATUS
  echo "$command: $1" >&2
  exit "$2"
}

take_file() { # take_file WORD..: one file that can be read
  [ $# -eq 1 ] || refuse "give one file: ./$command FILE" 2
  [ -e "$1" ] || refuse "there is no file $1" 1
  [ -d "$1" ] && refuse "$1 is a directory, and a tune is a file" 1
  [ -r "$1" ] || refuse "$1 cannot be read" 1
}

build_program() {
  local log
  command -v rt >/dev/null || refuse "there is no rt: install the Rattle kit and put its bin on PATH" 3
  [ -x "$built" ] && [ -z "$(find "$home"/crates/*/{src,specs,proofs} "$home/crates.txt" -newer "$built" -type f -print -quit 2>/dev/null)" ] && return
  echo "$command: proving and building the program $program; from nothing that takes some minutes" >&2
  log=$(mktemp) || refuse "no room for a log" 3
  # rt proves and builds it, and then runs it, here on nothing
  (cd "$home/crates/$program" && rt run </dev/null 2>&1 >/dev/null) | tee "$log" | sed -un "s/^crate \([a-z_]*\): .*/$command: \1 is checked/p" >&2 || true
  grep -q '^rt: running ' "$log" || refuse "the program $program was not built; $log has what rt said" 3
  rm -f "$log"
  touch "$built"
}

run_program() { # on standard input
  "$built"
}
