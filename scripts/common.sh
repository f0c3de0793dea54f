# What `plan`, `check` and `add` share. Each names itself in `script`, the folder of the repository in `top`, and has a function
# `use` that prints its use.
set -euo pipefail
export LC_ALL=C

# Says what went wrong, and ends with a status.
fail() { # STATUS WORDS
  printf '%s: %s\n' "$script" "$2" >&2
  exit "$1"
}

# Ends with the use: it was asked for.
asked_use() {
  use || fail 3 "the use could not be written"
  exit 0
}

# Ends with the use: the arguments are not as it says.
wrong_use() {
  use >&2
  exit 2
}

# Takes a name as a path that looks like no option.
take_path() { # NAME
  case $1 in
    '' | /*) path=$1 ;;
    *) path=./$1 ;;
  esac
}

# The path is a folder that can be entered.
need_folder() { # NAME
  [ -d "$path" ] || fail 2 "'$1' is not a folder"
  [ -x "$path" ] || fail 2 "the folder $1 cannot be entered"
}

# Makes a folder for temporary files, which goes away at the end.
make_room() {
  room=$(mktemp -d) || fail 3 "there is no room for a temporary file"
  trap 'rm -rf -- "$room"' EXIT
}

# A source that is newer than a program, if there is one. The folders `out`, which builds make, hold none.
newer_source() { # PROGRAM
  (cd "$top" && find crates.txt crates -type d -path 'crates/*' ! -path 'crates/*/*' -o -name out -prune -o -newer "$1" -print -quit)
}

# Builds a program unless it is there and no source is newer. It then has the time at which the build began, so that
# a source that was edited meanwhile is newer.
build() { # PROGRAM
  local program=$top/target/bin/$1
  if [ -x "$program" ] && [ -z "$(newer_source "$program")" ]; then
    return
  fi
  : >"$room/began"
  # A program is proved and built as it is first run; here it finds no files and no input, and writes none.
  if ! (cd "$top/crates/$1" && rt run "$1") </dev/null >"$room/first"; then
    cat -- "$room/first" >&2
    fail 3 "$1 could not be built"
  fi
  mkdir -p "$top/target/bin"
  cp -- "$top/crates/$1/out/$1" "$program.new" && mv -- "$program.new" "$program" ||
    fail 3 "all is proved, but there is no $1 in crates/$1/out: remove that folder"
  touch -r "$room/began" "$program"
}

# Runs a program in the folder of the path, and keeps what it prints.
run_in_folder() { # PROGRAM
  build "$1"
  (cd "$path" && "$top/target/bin/$1") >"$room/printed" || true
}

# The programs have no status: the last line that they print, with its newline, tells whether all is there. It stands in
# `last` with a dot behind it.
take_last() {
  last=$(tail -n 1 -- "$room/printed" && printf .)
}

# Prints what was kept, and ends with a status.
print_kept() { # STATUS WHAT
  cat -- "$room/printed" || fail 3 "$2 could not be written"
  exit "$1"
}
