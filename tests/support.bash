# What the checks share; tests/run reads it. A check is a function check_NAME.
# It runs in a fresh folder in which the program runs too, so that tree/,
# packages/ and rooms/ stand in the current folder. Beside it stand
#
#   ../want/     the store that the program must leave: names and bytes
#   ../staged/   the files of the package that the next want_package expects
#   ../misses    one line for each thing that was not as it should be

# ---- Before the program runs

# listed ORIGIN: the lists of the tree name the port's category, and the port.
listed() {
  list_name tree/ports "${1%%/*}"
  list_name "tree/ports/${1%%/*}" "${1#*/}"
}

# list_name FOLDER NAME: the folder's list names it, once.
list_name() {
  mkdir -p "$1"
  grep -q -x -F "SUBDIR+=$2" "$1/subdir.vars" 2>/dev/null || printf 'SUBDIR+=%s\n' "$2" >>"$1/subdir.vars"
}

# port ORIGIN LINE..: a listed port whose port.vars has these lines.
port() {
  local folder=tree/ports/$1
  listed "$1"
  shift
  mkdir -p "$folder"
  printf '%s\n' "$@" >"$folder/port.vars"
}

# file PATH TEXT: a file with these bytes (the escapes of printf's %b count).
file() {
  mkdir -p "$(dirname "$1")"
  printf '%b' "$2" >"$1"
}

# ax LINE..: the port a/x, version 1.0, with these further lines, and its one
# file `hello`, which has the bytes `hi` and a line feed.
ax() {
  port a/x PORTNAME=x PORTVERSION=1.0 "$@"
  file tree/ports/a/x/files/hello 'hi\n'
}

# ax_file NAME TEXT: one more file of the port a/x.
ax_file() { file "tree/ports/a/x/files/$1" "$2"; }

# am LINE..: the port a/m, version 1.0, of the flavors py39 and py311, whose
# packages begin with the flavor, with these further lines.
am() {
  port a/m PORTNAME=m PORTVERSION=1.0 'FLAVORS=py39 py311' py39_PKGNAMEPREFIX=py39- py311_PKGNAMEPREFIX=py311- "$@"
}

# stored NAME TEXT: a file that is in the store before, and must stay as it is.
stored() {
  file "packages/$1" "$2"
  file "../want/$1" "$2"
}

# ---- Running it

# poudriere WORD..: runs the program. Its standard input holds text, which the
# commands of a port must not see; standard output goes where the caller says.
poudriere() {
  : >../stderr
  timeout 60 "$program" "$@" <../stdin 2>../stderr
  status=$?
  [ ! -s ../stderr ] || miss "wrote to standard error: $(head -n 1 ../stderr)"
}

# run WORD..: runs it with these words and keeps what it printed.
run() { poudriere "$@" >../stdout; }

# bulk WORD..: runs `poudriere bulk` with these words.
bulk() { run bulk "$@"; }

# ---- What must hold then

miss() { printf '%s\n' "$*" >>../misses; }

# ends STATUS: the last run ended with it.
ends() {
  : >../expected
  [ "$status" = "$1" ] || miss "status $status, not $1"
}

# says STATUS LINE..: the last run printed these lines and no more, and ended so.
says() {
  ends "$1"
  shift
  printf '%s\n' "$@" >../expected
  cmp -s ../expected ../stdout || miss "printed '$(shown ../stdout)', not '$(shown ../expected)'"
}

# shown FILE: its first bytes on one line.
shown() { head -c 200 "$1" | tr '\n' '|' | tr -cd '[:print:]'; }

# refuses LINE: the last run printed this one line, ended with 2, and built nothing.
refuses() {
  says 2 "$1"
  [ ! -e rooms ] || miss 'a room was used'
}

usage='usage: poudriere bulk [-acCnT] [-f path] [-J n] [origin ...]'

# The lines that the next `built` expects to be said of words that moved.
moved=()

# built NODE NAME ..: the lists of a run that built these and no other.
built() {
  local count=$(($# / 2)) entries
  entries=$(printf '  %s %s\n' "$@")
  says 0 "${moved[@]}" 'deleted 0' 'kept 0' "built $count" "$entries" 'failed 0' 'ignored 0' 'skipped 0' "total $count"
}

# failed NODE NAME PHASE CODE: the lists of a run in which it failed.
failed() {
  says 1 'deleted 0' 'kept 0' 'built 0' 'failed 1' "  $1 $2 $3 $4" 'ignored 0' 'skipped 0' 'total 1'
}

# recipe_of NAME: the digest of the recipe that a stored package tells.
recipe_of() { sed -n '5s/^recipe //p;5q' "packages/$1.pkg" 2>/dev/null; }

# want_package NAME NODE [OPTION=STATE ..]: the store must hold this package,
# whose files are those that stand below ../staged. Its recipe's digest is taken
# as it is told; want_recipe computes it.
want_package() {
  local name=$1 node=$2
  shift 2
  "$tests/make_record" "$name" "$node" ../staged "$(recipe_of "$name")" "$@" >"../want/$name.pkg"
}

# want_recipe NAME NODE [OPTION=STATE ..] <COMMANDS: the stored package tells the
# digest of the recipe with these commands, a line each behind its phase, and the
# files of the node's port.
want_recipe() {
  local name=$1 node=$2 wanted told
  shift 2
  wanted=$("$tests/make_recipe" "$name" "$node" "tree/ports/${node%@*}/files" "$@" | sha256sum | cut -d ' ' -f 1)
  told=$(recipe_of "$name")
  [ "$told" = "$wanted" ] || miss "the package $name tells the recipe '$told', not '$wanted'"
}

# staged PATH TEXT: a file of the expected package.
staged() { file "../staged/$1" "$2"; }

# built_with_hello: a/x was built, and its package has the file `hello`.
built_with_hello() {
  built a/x x-1.0
  staged hello 'hi\n'
  want_package x-1.0 a/x
}

# built_empty: a/x was built, and its package has no file.
built_empty() {
  built a/x x-1.0
  want_package x-1.0 a/x
}

# stores_agree: the store is what ../want says, in names and bytes.
stores_agree() {
  [ -e packages ] || mkdir packages
  diff -r -q ../want packages >../difference 2>&1 || miss "the store: $(head -n 1 ../difference)"
}

# again: compares the store and takes away what the run made, so that one check
# can make several runs. tests/run compares the store after the last one.
again() {
  stores_agree
  rm -rf packages rooms ../want/* ../staged/*
  moved=()
}

# anew: as again, and takes the tree away too.
anew() {
  again
  rm -rf tree
}

# skip REASON: this check cannot be made here.
skip() {
  printf '%s\n' "$1" >../skipped
  exit 0
}
