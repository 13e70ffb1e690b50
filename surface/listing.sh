# Read by run and by the installed kanzhulet-list, which say what they are called (`called`): their one argument, and
# the listing program run on it.

usage() {
  cat <<END
usage: $called [FILE]

Lists the stream in FILE, or the one on standard input: the dimension and the number of darts, the links of each dart,
the number of cells of each rank, of free pairs and of steps; or, on one line, by which number and at which place the
stream is refused. kanzhulet.h says what the numbers mean.

  --help   prints this text

Exit status: 0 listed, 1 refused, 2 not read (a wrong argument, no such file, or no listing program).
END
}

say() { echo "${called#./}: $*" >&2; }
stop() { say "$*"; exit 2; }

# take_input WORD...: the file that is named becomes standard input.
take_input() {
  [ $# -le 1 ] || stop "one file at a time; '$called --help' tells how it is called"
  [ $# -eq 1 ] || return 0
  case $1 in
  --help)
    usage
    exit 0
    ;;
  -*) stop "there is no option $1; '$called --help' tells how it is called" ;;
  '') stop "the file's name is empty" ;;
  esac
  [ -e "$1" ] || stop "there is no file $1"
  [ ! -d "$1" ] || stop "$1 is a folder"
  [ -r "$1" ] || stop "the file $1 may not be read"
  exec <"$1"
}

# list WORD...: prints what the listing program, called by these words, makes of standard input. The status is 1 if that
# is a refusal; the program itself ends with status 0 there too.
list() {
  local text
  [ ! -t 0 ] || say "reading a stream from the terminal, up to its end (Ctrl-D)"
  text=$("$@") || stop "the listing program ended with status $?"
  printf '%s\n' "$text"
  case $text in
  'refused '*) return 1 ;;
  'dimension '*) return 0 ;;
  *) stop "the listing program printed no listing" ;;
  esac
}
