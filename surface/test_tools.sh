# Read by surface/test: the tests of ./run, of off.c, of ./install and of what is installed.

# ends STATUS WORD...: a command ends with this status; what it prints goes to target/surface/said.out and said.err.
ends() {
  local want=$1 status=0
  shift
  "$@" >"$build/said.out" 2>"$build/said.err" || status=$?
  [ "$status" -eq "$want" ] || { cat "$build/said.err"; stop "$* ended with status $status and not $want"; }
}

# said FILE PATTERN: the last of these commands printed such a line to said.out or said.err.
said() {
  grep -q -e "$2" "$build/said.$1" || { cat "$build/said.$1"; stop "nothing like '$2' was said"; }
}

# said_no FILE: it printed nothing there.
said_no() {
  [ ! -s "$build/said.$1" ] || { cat "$build/said.$1"; stop "something was said where nothing is to be said"; }
}

# lists STATUS TEXT WORD...: the words, a listing command, print just this for standard input, with this status.
lists() {
  local text=$2
  ends "$1" "${@:3}"
  printf '%s\n' "$text" | diff - "$build/said.out" || stop "${*:3} does not print what it is to print"
  said_no err
}

# refuses_words WORD...: what such a command says of arguments that it does not take.
refuses_words() {
  ends 2 "$@" "$build/longest.stream" "$build/longest.stream"
  said err 'one file at a time'
  ends 2 "$@" --verbose
  said err 'there is no option --verbose'
  ends 2 "$@" "$build/no such file"
  said err 'there is no file .*no such file'
  ends 2 "$@" "$build"
  said err 'is a folder'
  said_no out
  ends 0 "$@" --help
  said out '^usage: .* \[FILE\]$'
  said_no err
}

# The square and the band of surface/example.c, as they are listed; both are open.
square=$(
  printf '%s\n' 'dimension 2 darts 8' '0 1 2 0' '1 0 4 1' '2 3 0 2' '3 2 6 3' '4 5 1 4' '5 4 7 5' '6 7 3 6' '7 6 5 7'
  printf '%s\n' 'cells 4 4 1' 'free 8' 'steps 24' 'orientable yes'
)
band=$(
  printf '%s\n' 'dimension 2 darts 8' '0 1 2 7' '1 0 4 6' '2 3 0 2' '3 2 6 3' '4 5 1 4' '5 4 7 5' '6 7 3 1' '7 6 5 0'
  printf '%s\n' 'cells 2 3 1' 'free 4' 'steps 24' 'orientable no'
)

# Two lone darts in one stream, and the square and the band: the report is that of both, and the band is not orientable.
lone_darts=$(printf '%s\n' 'dimension 1 darts 2' '0 0 0' '1 1 1' 'cells 2 2' 'free 4' 'steps 4' 'orientable yes')
square_and_band=$(
  printf '%s\n' 'dimension 2 darts 16' '0 1 2 0' '1 0 4 1' '2 3 0 2' '3 2 6 3' '4 5 1 4' '5 4 7 5' '6 7 3 6' '7 6 5 7'
  printf '%s\n' '8 9 10 15' '9 8 12 14' '10 11 8 10' '11 10 14 11' '12 13 9 12' '13 12 15 13' '14 15 11 9' '15 14 13 8'
  printf '%s\n' 'cells 6 7 2' 'free 12' 'steps 48' 'orientable no'
)

# lists_longest LENGTH WORD...: the stream that longest.c gives for these words has this length and is listed whole,
# from standard input and from a file.
lists_longest() {
  local text
  run longest stream "${@:2}" >"$build/longest.stream"
  [ "$(wc -c <"$build/longest.stream")" -eq "$1" ] || stop "the longest stream is not of $1 bytes"
  text=$(run longest text "${@:2}")
  lists 0 "$text" "$root/run" <"$build/longest.stream"
  lists 0 "$text" "$root/run" "$build/longest.stream" </dev/null
}

# A refusal prints one line, a listing ends with whether the map is orientable, streams beyond 50,178 bytes are read in
# full, and a stream of several pages is listed whole, in both forms.
test_listing() {
  bring_program
  printf '\x20\x07\x01\x80\x3D\x50' | lists 0 "$square" "$root/run"
  printf '\x20\x07\x01\x80\x3E\x00\xF4' | lists 0 "$band" "$root/run"
  printf '' | lists 1 'refused 11 at 0' "$root/run"
  printf '\x70\x00' | lists 1 'refused 1 at 0' "$root/run"
  printf '\x10\x02\x60\x0A' | lists 1 'refused 21 at 2' "$root/run"
  printf '\x10\x01\xC0\x00' | lists 1 'refused 22 at 0' "$root/run"
  printf '\x10\x03\x18\x00\x00' | lists 1 'refused 23 at 5' "$root/run"
  printf '\x90\x01\xAA' | lists 0 "$lone_darts" "$root/run"
  printf '\xA0\x0F\x01\x80\x3D\x50\x0C\x03\xF0\x0F\xA0' | lists 0 "$square_and_band" "$root/run"
  printf '\x90\x01\x50' | lists 1 'refused 30 at 4' "$root/run"
  printf '\x90\x01\xA0' | lists 1 'refused 13 at 2' "$root/run"
  printf '\x90\x02\xAA' | lists 1 'refused 11 at 4' "$root/run"
  printf '\x80\x01\xAA' | lists 1 'refused 1 at 0' "$root/run"
  printf '\xF0\x01\xAA' | lists 1 'refused 1 at 0' "$root/run"
  { printf '\x90\x01\xAA'; head -c 60000 /dev/zero; } | lists 1 'refused 18 at 4' "$root/run"
  { printf '\x10\x00\xA0'; head -c 60000 /dev/zero; } | lists 1 'refused 18 at 2' "$root/run"
  { printf '\x1F\xFF'; head -c 60000 /dev/zero; } | lists 1 'refused 13 at 8189' "$root/run"
  lists_longest 21762 bodies
  lists_longest 14854
  refuses_words "$root/run" </dev/null
  say "the listing program prints what it is to print"
}

# cube_text FACES: OFF text of so many faces of a cube, the lid first, with comments and ends of lines of every kind.
cube_text() {
  printf '# a cube\nOFF\r\n8 %s 12\n0 0 0  1 0 0\r\n1 1 0  0 1 0 # below\n0 0 1  1 0 1  1 1 1  0 1 1\n' "$1"
  printf '%s\n' '4 4 5 6 7 255 0 0' '4 0 3 2 1' '4 0 1 5 4# front' '4 1 2' '6 5' '4 2 3 7 6' '4 3 0 4 7' |
    tail -n +"$((7 - $1))"
}

# torus_text: as many squares as a map may have; the text is longer than off.c's first room, the stream than its pages.
torus_text() {
  awk 'BEGIN {
    print "OFF\n512 512 1024"
    for (v = 0; v < 512; v++) print v % 32 ".5", int(v / 32), 0
    for (f = 0; f < 512; f++) {
      x = f % 32; y = f - x; next_x = (x + 1) % 32; next_y = (y + 32) % 512
      print 4, y + x, y + next_x, next_y + next_x, next_y + x
    }
  }'
}

# squares_text: as many squares as a map may have, none of which has a side with another in common.
squares_text() {
  awk 'BEGIN {
    print "OFF\n2048 512 2048"
    for (v = 0; v < 2048; v++) print v, 0, 0
    for (f = 0; f < 2048; f += 4) print 4, f, f + 1, f + 2, f + 3
  }'
}

# summary: how ./run lists standard input, but for the lines of the darts.
summary() { "$root/run" | sed '/^[0-9]/d'; }

# posts TEXT WORD...: of the OFF text on standard input off.c makes a stream, for which these words print this text.
posts() {
  ends 0 run off
  said_no err
  cp "$build/said.out" "$build/off.stream"
  lists 0 "$1" "${@:2}" <"$build/off.stream"
}

# listing DARTS CELLS FREE STEPS ORIENTABLE: what a summary says of a map of dimension 2.
listing() { printf 'dimension 2 darts %s\ncells %s\nfree %s\nsteps %s\norientable %s\n' "$@"; }

# From OFF text to a stream, and by ./run to its listing; faces that do not hang together give one of several bodies. A
# refused text prints its line and gives no stream.
test_off() {
  local flat='OFF 4 1 4 0 0 0 1 0 0 1 1 0 0 1 0'
  local strip='OFF 6 3 9 0 0 0 1 0 0 2 0 0 3 0 0 4 0 0 5 0 0'
  local two='OFF 6 2 6 0 0 0 1 0 0 2 0 0 3 0 0 4 0 0 5 0 0'
  printf '%s\n' "$flat" '4 0 1 2 3' | posts "$square" "$root/run"
  cube_text 6 | posts "$(listing 48 '8 12 6' 0 144 yes)" summary
  cube_text 5 | posts "$(listing 40 '8 12 5' 8 120 yes)" summary
  printf '%s\n' "$strip" '4 0 1 3 2' '4 2 3 5 4' '4 4 5 0 1' | posts "$(listing 24 '6 9 3' 12 72 no)" summary
  torus_text | posts "$(listing 4096 '512 1024 512' 0 12288 yes)" summary
  [ "$(wc -c <"$build/off.stream")" -gt 1024 ] || stop "the stream of the torus has one page only"
  printf '%s\n' "$two" '3 0 1 2' '3 3 4 5' | posts "$(listing 12 '6 6 2' 12 36 yes)" summary
  squares_text | posts "$(listing 4096 '2048 2048 512' 4096 12288 yes)" summary
  [ "$(wc -c <"$build/off.stream")" -gt 1024 ] || stop "the stream of the squares has one page only"
  printf '%s\n' "$flat" '4 0 1 2 2' | ends 1 run off
  said_no out
  said err '^refused 28 at 0: a face has fewer than three corners or two equal neighbours (place: the face,'
  printf 'OFF 4 1 4 0 0 0 1 O' | ends 1 run off
  said_no out
  said err '^refused 26 at 19: a word or number of the text is malformed or missing (place: '
  ends 2 run off <"$root"
  said_no out
  said err '^the text could not be read$'
  say "off.c makes of OFF text the stream that it is to make"
}

# When ./run proves and builds, and what it says then, in a copy of the repository with a stand-in for rt: it takes two
# crates for proved, and the program for built, unless there is a file `fault`; with a file `meanwhile` a crate changes
# while it works, a moment after the start: a file's time does not tell two changes of one clock tick apart. The copy
# lies outside the repository, where the gate takes no .rt or .antt for its own.
test_run() {
  local copy tool crate part
  copy=$(mktemp -d)
  trap "rm -rf '$copy'" EXIT # by its name: the variable is gone where a test stops
  mkdir -p "$copy/kit" "$copy/tools" "$copy/crates"
  cp -r "$root/crates.txt" "$root/run" "$root/surface" "$copy"
  for crate in "$root"/crates/*/; do
    crate=${crate%/}
    mkdir "$copy/crates/${crate##*/}"
    for part in src specs proofs must-fail stdin; do
      [ ! -e "$crate/$part" ] || cp -r "$crate/$part" "$copy/crates/${crate##*/}"
    done
  done
  cat >"$copy/kit/rt" <<END
#!/bin/sh
echo "\$* in \${PWD##*/}" >>'$copy/calls'
[ ! -f '$copy/fault' ] || { echo 'logic=not-proved'; exit 1; }
for crate in rules tables; do echo 'logic=proved functions=1'; done
[ ! -f '$copy/meanwhile' ] || { sleep 0.1; touch ../words/src/lib.rt; }
mkdir -p out
cp '$program' out/list
END
  chmod +x "$copy/kit/rt"
  for tool in bash awk cat dirname find grep mkdir readlink sleep touch uname; do
    ln -s "$(command -v "$tool")" "$copy/tools/$tool"
  done
  printf '\x10\x00\xA0' >"$copy/lone"
  (cd "$copy" && proves_when_needed </dev/null)
  rm -rf "$copy"
  trap - EXIT
  say "./run proves and builds what has changed, and nothing else"
}

# made TIMES: the stand-in was called so often since it was last asked.
made() {
  local calls=0
  [ ! -f calls ] || calls=$(grep -c '^run in list$' calls)
  rm -f calls
  [ "$calls" -eq "$1" ] || stop "rt was called $calls times and not $1"
}

proves_when_needed() {
  local rest=$PATH
  PATH=$PWD/tools ends 2 ./run lone
  said err 'the command rt of the Rattle toolchain is not on the path: see README.md, "What it needs"'
  grep -q '^## What it needs$' "$root/README.md" || stop "README.md does not say what it needs"
  PATH=$PWD/kit:$rest
  ends 0 ./run --help
  made 0
  : >fault
  ends 2 ./run lone
  said err '^run: building the listing program: 16 of 16 crates to prove, about 3 minutes$'
  said err 'could not be proved and built: see target/list.log$'
  said_no out
  grep -q 'not-proved' target/list.log || stop "the log has not what rt said"
  made 1
  rm fault
  ends 0 ./run lone
  said out '^dimension 1 darts 1$'
  said err '^run: 2 of 16 crates proved, [0-9]* s$'
  made 1
  touch crates/lent/src/lib.rt crates/rules/must-fail/* surface/calls.c
  ends 0 ./run lone
  said_no err
  made 0
  touch crates/listing/src/lib.rt
  ends 0 ./run lone
  said err '^run: building the listing program: 2 of 16 crates to prove, about 24 seconds$'
  made 1
  ends 0 ./run lone
  made 0
  mkdir crates/tables/out # as a check leaves its work
  : >crates/tables/out/kept
  ends 0 ./run lone
  said_no err
  made 0
  touch crates.txt
  ends 0 ./run lone
  said err '^run: building the listing program: 16 of 16 crates to prove, about 3 minutes$'
  made 1
  : >meanwhile
  rm crates/counts/proofs/Lib.antt # what is gone is a change too
  ends 0 ./run lone
  said err '^run: building the listing program: 3 of 16 crates to prove, about 36 seconds$'
  made 1
  rm meanwhile
  ends 0 ./run lone # words has changed while the last was built
  said err '^run: building the listing program: 3 of 16 crates to prove, about 36 seconds$'
  made 1
  ends 0 ./run lone
  said_no err
  made 0
}

# flags OPTION FIELD: what pkg-config answers for the installed library, or the file's own field where there is none.
flags() {
  if command -v pkg-config >/dev/null; then
    PKG_CONFIG_PATH=$prefix/lib/pkgconfig pkg-config "$1" kanzhulet
  else
    sed -n "s,\${includedir},$prefix/include,; s,\${libdir},$prefix/lib,; s/^$2: //p" \
      "$prefix/lib/pkgconfig/kanzhulet.pc"
  fi
}

# used NAME: surface/NAME.c, taken out of the repository and compiled against the installed library with pkg-config's
# flags only, prints what it is to print.
used() {
  local include libs
  read -r -a include < <(flags --cflags Cflags)
  read -r -a libs < <(flags --libs Libs)
  cp "$root/surface/$1.c" "$room/$1.c"
  compile "$room/$1.c" "$room/$1.o" "${include[@]}"
  link_with "$room/$1" "$room/$1.o" "${libs[@]}"
  prints "$1" "$room/$1"
}

# One version everywhere.
test_version() {
  local version
  version=$(flags --modversion Version)
  grep -q "^#define KZ_VERSION \"$version\"\$" "$prefix/include/kanzhulet.h" || stop "the header has another version"
  grep -q "^version = \"$version\"\$" "$root/surface/rust/Cargo.toml" || stop "Cargo.toml has another version"
  grep -m 1 '^## ' "$root/docs/CHANGES.md" | grep -q " ($version)\$" ||
    stop "docs/CHANGES.md begins with another version"
}

# The installed listing program. On another processor than x86-64, which a stand-in for uname makes of this one, it
# takes an emulator from the path.
test_installed_listing() {
  local list=$prefix/bin/kanzhulet-list PATH=$PATH
  lists 0 "$(run longest text)" "$list" "$build/longest.stream"
  printf '\x10\x01' | lists 1 'refused 11 at 0' "$list"
  refuses_words "$list" </dev/null
  mkdir "$room/other"
  printf '#!/bin/sh\necho aarch64\n' >"$room/other/uname"
  printf '#!/bin/sh\n: >"%s"\nexec "$@"\n' "$room/other/emulated" >"$room/other/qemu-x86_64"
  chmod +x "$room/other/uname" "$room/other/qemu-x86_64"
  PATH=$room/other:$PATH
  printf '\x10\x01' | lists 1 'refused 11 at 0' "$list"
  [ -f "$room/other/emulated" ] || stop "kanzhulet-list takes no emulator from the path"
}

test_install() {
  room=$(mktemp -d)
  trap 'rm -rf "$room"' EXIT
  prefix=$room/not/there
  ends 2 "$root/install"
  ends 2 "$root/install" --prefix
  ends 0 "$root/install" --help
  said out '^usage: ./install PREFIX$'
  ends 0 "$root/install" "$prefix"
  used example
  used short
  used post
  test_version
  test_installed_listing
  say "the library installs, and is used from there ($(command -v pkg-config || echo "without pkg-config"))"
}
