# Read by run, install and surface/build.sh: the toolchain's kit, and how the listing program and the library are proved
# and built where something that they are made of has changed. The reader says how it speaks (`say`), how it gives up
# (`stop`) and where the repository is (`root`).

# The toolchain's command, and what runs it: its programs are for x86-64, as is all that it builds.
find_rt() {
  command -v rt >/dev/null ||
    stop 'the command rt of the Rattle toolchain is not on the path: see README.md, "What it needs"'
  [ "$(uname -m)" = x86_64 ] || stop "the Rattle toolchain runs on x86-64 alone, and this machine is $(uname -m)"
}

# The kit's compiler, linker, archiver and C library: `kit`, found beside the page that `rt doc` names.
find_kit() {
  find_rt
  kit=$(dirname "$(rt doc)")/toolchain
  [ -x "$kit/bin/clang" ] || stop "the Rattle toolchain on the path has no compiler: there is no $kit/bin/clang"
}

# needs CRATE [CHANGED]: the crates that a crate is proved from, itself last, each after those that it uses. With a list
# of crates only those of them that are in it, or are proved from one that is.
needs() {
  awk -v wanted="$1" -v changed="${2-all}" '
    function visit(name,   uses, count, k) {
      if (name in hit || !(name in line)) return
      hit[name] = changed == "all" || index(" " changed " ", " " name " ") > 0
      count = split(line[name], uses, " ")
      for (k = 1; k <= count; k++) { visit(uses[k]); if (hit[uses[k]]) hit[name] = 1 }
      if (hit[name]) print name
    }
    { sub(/#.*/, "") }
    /:/ { name = $1; sub(/:.*/, "", name); sub(/^[^:]*:/, ""); line[name] = $0 }
    END { visit(wanted) }' "$root/crates.txt"
}

# changed CRATE PRODUCT: is there no such file, or is something that the crate is proved and built from younger? The
# edits that must fail are no part of the crate, and its out/ is the toolchain's.
changed() {
  local part parts=()
  for part in src specs proofs; do
    [ ! -d "$root/crates/$1/$part" ] || parts+=("$root/crates/$1/$part")
  done
  [ ! -f "$2" ] || [ ${#parts[@]} -eq 0 ] || [ -n "$(find "${parts[@]}" -newer "$2" -print -quit)" ]
}

# proved_in LOG: of how many crates a log says that they are proved. Of those whose proof stands still it says nothing.
proved_in() { grep -c '^logic=proved ' "$1" || true; }

# about SECONDS, in words.
about() { if [ "$1" -lt 90 ]; then echo "$1 seconds"; else echo "$((($1 + 30) / 60)) minutes"; fi; }

# count_along LOG ALL: on a terminal, one line that says every second how far the proofs are, until it is killed.
count_along() {
  local began=$SECONDS
  while [ -t 2 ]; do
    printf '\r%s' "$(say "$(proved_in "$1") of $2 crates proved, $((SECONDS - began)) s" 2>&1)" >&2
    sleep 1
  done
}

# prove VERB CRATE LOG COUNT: `rt VERB` in a crate's folder, with what it says in a log, and counting how many crates
# are done. `rt run` runs the program too, on the crate's own stdin.
prove() {
  local status=0 began=$SECONDS counter input=$root/crates/$2/stdin
  [ -f "$input" ] || input=/dev/null
  : >"$3"
  count_along "$3" "$4" &
  counter=$!
  trap 'kill $counter 2>/dev/null' EXIT
  (cd "$root/crates/$2" && rt "$1") <"$input" >"$3" 2>&1 || status=$?
  kill "$counter" 2>/dev/null || true
  wait "$counter" 2>/dev/null || true
  trap - EXIT
  [ ! -t 2 ] || printf '\r' >&2
  say "$(proved_in "$3") of $4 crates proved, $((SECONDS - began)) s" >&2
  return "$status"
}

# bring WHAT VERB CRATE FILE: makes crates/CRATE/out/FILE by `rt VERB`, unless it is there and as young as all that it
# is made of; `product` is its path. The toolchain proves again what has changed, and first whatever is not proved here
# yet: after the gate in a new clone, say, which leaves the program but neither the library nor a check's work.
bring() {
  local what=$1 verb=$2 crate=$3 log=$root/target/$3.log start=$root/target/$3.start
  local name all touched='' stale
  product=$root/crates/$crate/out/$4
  mapfile -t all < <(needs "$crate")
  for name in "${all[@]}"; do
    if changed "$name" "$product"; then touched+=" $name"; fi
  done
  if [ "$root/crates.txt" -nt "$product" ]; then touched=" ${all[*]}"; fi
  [ -n "$touched" ] || return 0
  find_rt
  mapfile -t stale < <(needs "$crate" "$touched")
  say "building $what: ${#stale[@]} of ${#all[@]} crates to prove, about $(about $((12 * ${#stale[@]})))" >&2
  mkdir -p "$root/target"
  : >"$start"
  prove "$verb" "$crate" "$log" "${#all[@]}" || stop "$what could not be proved and built: see ${log#"$root"/}"
  [ -f "$product" ] || stop "rt $verb made no ${product#"$root"/}: see ${log#"$root"/}"
  # What changes while it is built is younger than the start.
  touch -r "$start" "$product"
}

# The listing program: `program` is its path.
bring_program() {
  local product
  bring "the listing program" run list list
  program=$product
}

# The library, the proved archive and, in plain C, the texts of surface/messages.c: `library` is its path.
bring_library() {
  local product folder=$root/target/library texts=$root/surface/messages.c header=$root/include/kanzhulet.h
  bring "the library" lib exchange libexchange.a
  library=$folder/libkanzhulet.a
  [ ! -f "$library" ] || [ -n "$(find "$product" "$texts" "$header" -newer "$library" -print -quit)" ] || return 0
  find_kit
  mkdir -p "$folder"
  rm -f "$library"
  "$kit/bin/clang" --target=x86_64-unknown-linux-gnu -std=c11 -Wall -Wextra -Wpedantic -Werror -O2 -fPIC -nostdinc \
    -isystem "$root/surface/headers" -I"$root/include" -c "$texts" -o "$folder/messages.o"
  cp "$product" "$folder/new.a"
  "$kit/bin/llvm-ar" rs "$folder/new.a" "$folder/messages.o"
  mv "$folder/new.a" "$library"
}
