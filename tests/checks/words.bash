# The words of the command line: the usage line, words that name no port, and
# several words.

check_usage() {
  ax 'DO_STAGE=cp work/hello stage/hello'
  run
  refuses "$usage"
  run bulk
  refuses "$usage"
  run a/x
  refuses "$usage"
  run Bulk a/x
  refuses "$usage"
  run '' a/x
  refuses "$usage"
  run --help
  refuses "$usage"
  run a/x bulk
  refuses "$usage"
}

# A word that is not UTF-8, or that holds a line feed, is no text.
check_words_that_are_no_text() {
  ax 'DO_STAGE=cp work/hello stage/hello'
  run bulk $'a/\xff'
  refuses "$usage"
  run $'\xc3' a/x
  refuses "$usage"
  run bulk $'a/x\n'
  refuses "$usage"
  run bulk a/x $'a/x\n'
  refuses "$usage"
}

# Outside dry runs flags are not read: each is a word that names no port.
check_no_origin() {
  ax 'DO_STAGE=cp work/hello stage/hello'
  local word long
  long=$(printf '%065d' 0)
  for word in '' a a/ /x a/y b/x b/none a/x/ a/x/y /a/x ./a/x a/./x a/../a/x 'a/x ' ' a/x' 'a/x a/x' a/x@ @all \
    a/y@all a/x@a@b a/x@ALL a/x@py-39 -n -a --help -- "$long/x" "a/$long" .a/x a/.x -a/x a/-x +a/x 'a/x*' \
    $'a/\xc3\xbc' a:x "a/x@$(printf '%033d' 0)"; do
    bulk "$word"
    refuses "poudriere: no origin $word"
  done
}

check_no_flavor() {
  ax
  am
  local word
  for word in a/m@py27 a/m@py3 a/m@0 a/x@py39 "a/m@$(printf '%032d' 0)"; do
    bulk "$word"
    refuses "poudriere: no flavor $word"
  done
}

# The first word that is refused is told, whatever the words beside it are.
check_first_refused_word() {
  ax
  am
  bulk a/x b/none a/m@py27
  refuses 'poudriere: no origin b/none'
  bulk a/x a/m@py27 b/none
  refuses 'poudriere: no flavor a/m@py27'
  bulk -C a/x
  refuses 'poudriere: no origin -C'
  bulk a/x -T
  refuses 'poudriere: no origin -T'
}

# Several ports are built in the byte order of their nodes, each once, in
# whatever order they are named and however often.
check_several_words() {
  local words
  for words in 'a/x a/m@all a-b/z' 'a-b/z a/m@py39 a/m@py311 a/x' 'a/x a/x a-b/z a/m a/m@all' 'a/m@all a/x@all a-b/z a/x'; do
    ax 'DO_STAGE=cp work/hello stage/hello'
    am
    port a-b/z PORTNAME=z PORTVERSION=3
    # shellcheck disable=SC2086
    bulk $words
    built a-b/z z-3 a/m@py311 py311-m-1.0 a/m@py39 py39-m-1.0 a/x x-1.0
    want_package z-3 a-b/z
    want_package py311-m-1.0 a/m@py311
    want_package py39-m-1.0 a/m@py39
    staged hello 'hi\n'
    want_package x-1.0 a/x
    again
  done
}

# A failed port does not keep the others from being built.
check_several_words_with_failures() {
  port a/a PORTNAME=a PORTVERSION=1 'DO_STAGE=touch stage/a'
  port a/b PORTNAME=b PORTVERSION=2 DO_BUILD=no-such-program-here
  port a/c PORTNAME=c PORTVERSION=3 'DO_STAGE=false'
  port a/d PORTNAME=d PORTVERSION=4 'DO_STAGE=touch stage/d'
  bulk a/d a/c a/b a/a
  says 1 'deleted 0' 'kept 0' 'built 2' '  a/a a-1' '  a/d d-4' \
    'failed 2' '  a/b b-2 build 127' '  a/c c-3 stage 1' 'ignored 0' 'skipped 0' 'total 4'
  staged a ''
  want_package a-1 a/a
  rm ../staged/a
  staged d ''
  want_package d-4 a/d
}

# All are built before the first is stored: a store that cannot take the first
# package has none, and the last port was built all the same.
check_all_are_built_before_any_is_stored() {
  port a/a PORTNAME=a PORTVERSION=1 'DO_STAGE=touch stage/a'
  port a/b PORTNAME=b PORTVERSION=1 'DO_STAGE=touch ../../last-one-ran'
  stored a-1.pkg.new/f ''
  bulk a/b a/a
  says 3 'poudriere: store failed'
  [ -e last-one-ran ] || miss 'the second port was not built'
}

# What one port leaves in the room is gone when the next is built.
check_each_port_has_a_clean_room() {
  port a/a PORTNAME=a PORTVERSION=1 'DO_BUILD=touch stage/left work-left'
  ax 'DO_BUILD=test ! -e stage/left ; test ! -e work-left' 'DO_STAGE=cp work/hello stage/hello'
  bulk a/a a/x
  built a/a a-1 a/x x-1.0
  staged hello 'hi\n'
  want_package x-1.0 a/x
  rm ../staged/hello
  staged left ''
  want_package a-1 a/a
}

check_longest_origin() {
  local long
  long=$(printf '%064d' 0)
  port "$long/$long" PORTNAME=x PORTVERSION=1.0
  bulk "$long/$long"
  built "$long/$long" x-1.0
  want_package x-1.0 "$long/$long"
}

check_letters_of_an_origin() {
  port _a.B-9+/9.x_Y-+ PORTNAME=x PORTVERSION=1.0
  bulk _a.B-9+/9.x_Y-+
  built _a.B-9+/9.x_Y-+ x-1.0
  want_package x-1.0 _a.B-9+/9.x_Y-+
}
