# What the commands and the tests share: where the kit is, how its C compiler and its linker are called, and how a program that they make is run, with
# the kit's C library; the C library of smaf_c. To be sourced from the repository's folder.
kit=$(dirname "$(rt doc)")
kit_lib=$kit/toolchain/lib
kit_loader=$kit_lib/ld-linux-x86-64.so.2
library=crates/smaf_c/out/libsmaf_c.a

kit_clang() { # kit_clang WORD..: with stand-ins for the headers of the C library, which the kit does not have
  "$kit/toolchain/bin/clang" --target=x86_64-linux-gnu -std=c99 -Wall -Wextra -Wpedantic -Werror -fPIC -nostdinc -isystem tests/c/headers "$@"
}

kit_link() { # kit_link PROGRAM OBJECT..: with the C library of the kit
  local program=$1
  shift
  "$kit/toolchain/bin/ld.lld" --allow-shlib-undefined -pie -dynamic-linker "$kit_loader" "$kit_lib/Scrt1.o" "$kit_lib/crti.o" "$@" \
    "$kit_lib/libc.so.6" "$kit_lib/libc_nonshared.a" "$kit_lib/crtn.o" -o "$program"
}

kit_run() { # kit_run PROGRAM WORD..
  "$kit_loader" --library-path "$kit_lib" "$@"
}

build_library() { # build_library LOG: proves and builds $library, where that is not done
  (cd crates/smaf_c && rt lib) >"$1" 2>&1
}
