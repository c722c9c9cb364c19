# MOVED and flavors: what a word leads to, and what is said of it.

moved_lines='a/o1|a/o2|2024-01-02|renamed
a/o2|a/x|2024-02-03|renamed
a/gone||2024-03-04|unmaintained
a/c1|a/c2|2024-04-05|x
a/c2|a/c1|2024-04-06|x
a/start|a/c1|2024-04-07|x
a/old|a/m@py39|2024-05-06|a flavor
a/many|a/m|2024-05-06|flavors
a/lost|a/m@py27|2024-05-06|no such flavor
a/m@py2|a/m@py39|2024-06-07|newer
a/m@none||2024-06-07|reasons | with marks
a/x|a/c1|2024-07-08|a port that is there'

# with_moved: the ports a/x and a/m beside this MOVED.
with_moved() {
  ax 'DO_STAGE=cp work/hello stage/hello'
  am
  printf '# old|new|date|reason\n\n \t\n%s\n' "$moved_lines" >tree/ports/MOVED
}

check_word_that_moved() {
  with_moved
  local word
  for word in a/o1 a/o2 a/o1@all; do
    bulk "$word"
    moved=("moved $word a/x")
    built_with_hello
    again
  done
  bulk a/x
  built_with_hello
}

check_words_that_moved() {
  with_moved
  bulk a/o2 a/x a/o1 a/o2 a/o1@all
  moved=('moved a/o2 a/x' 'moved a/o1 a/x' 'moved a/o1@all a/x')
  built_with_hello
}

# leads_to_refusal: for each line `WORD|LINE` of standard input, the word is
# refused so.
leads_to_refusal() {
  local word line
  while IFS='|' read -r word line; do
    bulk a/x "$word"
    refuses "poudriere: $line"
  done
}

check_words_that_lead_nowhere() {
  with_moved
  leads_to_refusal <<'END'
a/gone|a/gone was removed: unmaintained
a/gone@all|a/gone@all was removed: unmaintained
a/c1|MOVED comes back: a/c1 a/c2
a/c2|MOVED comes back: a/c2 a/c1
a/start|MOVED comes back: a/c1 a/c2
a/lost|no origin a/lost
a/m@none|a/m@none was removed: reasons | with marks
a/m@py27|no flavor a/m@py27
a/none|no origin a/none
END
}

# Of several lines on one name the last counts.
check_last_line_counts() {
  with_moved
  printf 'a/o1||2024-08-09|\na/gone|a/x|2024-08-09|back\n' >>tree/ports/MOVED
  bulk a/o1
  refuses 'poudriere: a/o1 was removed: '
  bulk a/gone
  moved=('moved a/gone a/x')
  built_with_hello
}

check_words_that_moved_to_a_flavor() {
  with_moved
  bulk a/m@py2 a/old
  moved=('moved a/m@py2 a/m@py39' 'moved a/old a/m@py39')
  built a/m@py39 py39-m-1.0
  want_package py39-m-1.0 a/m@py39
}

# Each line of standard input has a word, what is said of it where it moved, and
# the flavors of a/m that it means.
flavors_of_words() {
  local word name flavors flavor nodes
  while IFS='|' read -r word name flavors; do
    bulk "$word"
    [ -z "$name" ] || moved=("moved $word $name")
    nodes=()
    for flavor in $flavors; do
      nodes+=("a/m@$flavor" "$flavor-m-1.0")
      want_package "$flavor-m-1.0" "a/m@$flavor"
    done
    built "${nodes[@]}"
    again
  done
}

check_words_of_flavors() {
  with_moved
  flavors_of_words <<'END'
a/m||py39
a/m@all||py311 py39
a/m@py39||py39
a/m@py311||py311
a/old|a/m@py39|py39
a/old@all|a/m@py39|py39
a/many|a/m|py39
a/many@all|a/m|py311 py39
END
}

# What a variable of the flavor replaces: the name's ends and the commands.
check_variables_of_a_flavor() {
  am PKGNAMEPREFIX=p- PKGNAMESUFFIX=-s py311_PKGNAMEPREFIX= py311_PKGNAMESUFFIX=-new 'DO_STAGE=touch stage/plain' \
    'py39_DO_STAGE=touch stage/py39' 'py39_DO_EXTRACT=false ; true'
  bulk a/m@all
  says 1 'deleted 0' 'kept 0' 'built 1' '  a/m@py311 p-m-new-1.0' \
    'failed 1' '  a/m@py39 py39-m-s-1.0 extract 1' 'ignored 0' 'skipped 0' 'total 2'
  staged plain ''
  want_package p-m-new-1.0 a/m@py311
}

check_flavors_that_are_refused() {
  local flavors bad long
  while IFS='|' read -r bad flavors; do
    ax "FLAVORS=$flavors"
    bulk b/none
    refuses "poudriere: ports/a/x/port.vars:0: bad flavor $bad"
  done <<'END'
all|all
all|py39 all
Py39|py39 Py39 py39
py39|py39 py311 py39
py-39|py-39
END
  long=$(printf '%033d' 0)
  ax "FLAVORS=$long"
  bulk b/none
  refuses "poudriere: ports/a/x/port.vars:0: bad flavor $long"
}
