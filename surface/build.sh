# Read by surface/test, surface/vectors and surface/bench: the library, and how a C program of this folder is built with
# it and run.
#
# The library is proved and built where it is not there or a crate that it is made of has changed (prove.sh); if
# KANZHULET_LIB names a folder, the libkanzhulet.a in it is taken instead. The system's C compiler is used, or the kit's
# with the kit's C library if there is none. All is for x86-64, where alone the toolchain runs.

root=$(cd "$(dirname "${BASH_SOURCE[0]}")/.." && pwd -P)
build=$root/target/surface
strict=(-std=c11 -Wall -Wextra -Wpedantic -Werror)

say() { echo "surface: $*"; }
stop() { say "$*" >&2; exit 1; }
source "$root/surface/prove.sh"

find_library() {
  if [ -n "${KANZHULET_LIB:-}" ]; then
    library=$(cd "$KANZHULET_LIB" && pwd -P)/libkanzhulet.a
    [ -f "$library" ] || stop "there is no libkanzhulet.a in $KANZHULET_LIB"
  else
    bring_library
  fi
}

find_compiler() {
  if command -v cc >/dev/null; then
    by=system
  else
    by=kit
    find_kit
  fi
}

# compile FILE OBJECT FLAG...: a C file to an object for x86-64.
compile() {
  local file=$1 object=$2
  shift 2
  if [ "$by" = system ]; then
    cc "${strict[@]}" "$@" -c "$file" -o "$object"
  else
    "$kit/bin/clang" --target=x86_64-unknown-linux-gnu "${strict[@]}" -fPIE -nostdinc \
      -isystem "$root/surface/headers" "$@" -c "$file" -o "$object"
  fi
}

# link_with PROGRAM FILE...: objects, archives and flags to a program for x86-64 with the C library.
link_with() {
  local program=$1
  shift
  if [ "$by" = system ]; then
    cc "$@" -o "$program"
  else
    "$kit/bin/ld.lld" -pie --dynamic-linker /lib64/ld-linux-x86-64.so.2 -o "$program" \
      "$kit/lib/Scrt1.o" "$kit/lib/crti.o" "$kit/lib/crtbeginS.o" "$@" "$kit/lib/libc.so.6" \
      "$kit/lib/libc_nonshared.a" "$kit/lib/libgcc.a" "$kit/lib/crtendS.o" "$kit/lib/crtn.o"
  fi
}

# object NAME FLAG...: surface/NAME.c to target/surface/NAME.o.
object() {
  local name=$1
  shift
  mkdir -p "$build"
  compile "$root/surface/$name.c" "$build/$name.o" "$@" -I"$root/include"
}

# link NAME...: the objects of these names with the library, to target/surface/ and the first name.
link() {
  local name objects=()
  for name in "$@"; do
    objects+=("$build/$name.o")
  done
  link_with "$build/$1" "${objects[@]}" "$library"
}

# run NAME WORD...: the program target/surface/NAME.
run() { run_at "$build/$1" "${@:2}"; }

# run_at PROGRAM WORD...
run_at() {
  if [ "$by" = system ]; then
    "$@"
  else
    "$kit/lib/ld-linux-x86-64.so.2" --library-path "$kit/lib" "$@"
  fi
}

# build_bench: the benchmark with the reference, which is built as the archive is: -O3, a section for each function.
build_bench() {
  object reference -O3 -ffunction-sections
  object bench -O3 -Wno-unused-function
  link bench reference
}
