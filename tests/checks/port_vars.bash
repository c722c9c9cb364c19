# port.vars: its grammar, what a port must say, and what is refused at which line.

vars=tree/ports/a/x/port.vars

# refused_at LINE KIND TEXT: a port.vars with these bytes is refused so.
refused_at() {
  file "$vars" "$3"
  bulk a/x
  refuses "poudriere: ports/a/x/port.vars:$1: $2"
}

# refusals_of_vars: for each line `LINE|KIND|TEXT` of standard input, a port.vars
# of a name, a version and then TEXT is refused so. In TEXT the escapes of
# printf's %b count, and its first line is line 3 of the file.
refusals_of_vars() {
  local line kind text
  listed a/x
  while IFS='|' read -r line kind text; do
    refused_at "$line" "$kind" "PORTNAME=x\nPORTVERSION=1.0\n$text\n"
  done
}

check_lines_that_are_refused() {
  refusals_of_vars <<'END'
3|no operator|X
3|no operator|X:
3|no operator|PORTREVISION 1
3|bad name|=
3|bad name|=1
3|bad name|+=1
3|bad name|X:=1
3|bad name|X!=1
3|bad name|X Y=1
3|bad name|\0303\0274=1
3|bad name|${X}=1
3|bad reference|X=${Y}
3|bad reference|X=${X}
3|bad reference|X?=${Y}
3|bad reference|X=$Y
3|bad reference|X=$
3|bad reference|X=a$
3|bad reference|X=${Y
3|bad reference|X=${}
3|bad reference|X=$(PORTNAME)
3|bad reference|PORTNAME?=${Y}
3|not text|X=\0
3|not text|X=\0377
3|not text|# \0303
4|no operator|Y=1\nX
5|no operator|Y=1\\\n2\nX
3|no operator|X\\\nY\\\nZ
3|bad name|X\\\nY=1
3|not text|X\0\\\n
4|bad name|\nX:=1\nY
3|no operator|X\r
END
}

# Of several faulty lines the first is told, and of a line's faults the first in
# the order not text, too long, no operator, bad name, bad reference, too long.
check_first_faulty_line_is_told() {
  refusals_of_vars <<'END'
3|bad name|X:=1\nY
3|no operator|Y\nX:=1
3|bad reference|X=${Y}\nX:=1\n\0
3|not text|X\0\nX:=1
3|not text|X:=\0377
3|no operator|X$Y
3|bad name|X:=${Y}
END
}

# What is read like a port.vars of a name, a version and nothing else.
check_lines_that_say_nothing() {
  local text
  listed a/x
  for text in 'PORTNAME=x\nPORTVERSION=1.0' '\n\n \t\nPORTNAME=x\n#\nPORTVERSION=1.0\n # c\n' \
    'PORTNAME=x\r\nPORTVERSION=1.0\r\n' ' PORTNAME\t= \tx \nPORTVERSION =1.0# c=d\n' \
    'PORTNAME=x\nPORTVERSION=1.0\nX=\nX+=\nX?=\n_.-+9=a=b=c\n' 'PORTVERSION=2\nPORTNAME=y\nPORTVERSION=1.0\nPORTNAME=x\n' \
    'PORTNAME=x\nPORTVERSION=1.0\n# a comment \\\nX without an operator\n' 'PORTNAME=x\nPORTVERSION=1.0\n\\' \
    'PORTNAME=x\nPORTVERSION=1.0\n\\\n'; do
    file "$vars" "$text"
    bulk a/x
    built_empty
    again
  done
}

# values_of_name: for each line `NAME|TEXT` of standard input, a port.vars with
# the bytes TEXT gives a package of this name.
values_of_name() {
  local name text
  listed a/x
  while IFS='|' read -r name text; do
    file "$vars" "$text\n"
    bulk a/x
    built a/x "$name"
    want_package "$name" a/x
    again
  done
}

check_values() {
  values_of_name <<'END'
x-1.0|V=1\nPORTNAME=x\nPORTVERSION=${V}.0
x-11.1|V=1\nPORTNAME=x\nPORTVERSION=${V}${V}.${V}
x-1.0|PORTNAME?=x\nPORTNAME?=y\nPORTVERSION=1.0
x-1.0|PORTNAME=\nPORTNAME+=x\nPORTVERSION+=1.0
x-2|V=1\nW=${V}\nV=2\nPORTNAME=x\nPORTVERSION=${V}
x-1|V=1\nW=${V}\nV=2\nPORTNAME=x\nPORTVERSION=${W}
x-1|V-+._=1\nPORTNAME=x\nPORTVERSION=${V-+._}
x-2|X==1\nX++=2\nPORTNAME=x\nPORTVERSION=${X+}
x-1|PORTNAME=x\nPORTVERSION=\\\n   1
x-1|PORTNAME=x # y\nPORTVERSION=1#2
x-3|PORTNAME=x\nPORTNAME=${PORTNAME}\nPORTVERSION=3
END
}

# Marks reach the words of a command: `$$` as `$`, `\#` as `#`, other `\` as they
# stand, a joined line with one space, blanks of both kinds between words.
check_marks_in_values() {
  listed a/x
  ax_file count '[ "$*" = "$(cat work/want)" ] && [ $# = 8 ]\n'
  ax_file want '$A #b \\c d\\ e f $$ \0303\0274'
  file "$vars" 'PORTNAME=x\nPORTVERSION=1.0\nE=e \\\n\t f\nDO_BUILD=sh work/count\t$$A \\#b \\c  d\\ ${E}\nDO_BUILD+=$$$$ \0303\0274\n'
  bulk a/x
  built_empty
}

# The order of what a whole port.vars is asked, with the first two of the rest
# in each file.
check_order_of_what_a_port_must_say() {
  listed a/x
  refused_at 0 'missing PORTNAME' ''
  refused_at 0 'missing PORTNAME' '# only a comment\n'
  refused_at 0 'missing PORTNAME' 'PORTNAME=\nPORTVERSION=\n'
  refused_at 0 'missing PORTVERSION' 'PORTNAME=x\nFLAVORS=all\n'
  refused_at 0 'bad flavor all' 'PORTNAME=x\nPORTVERSION=1\nFLAVORS=a all\nOPTIONS_DEFINE=\\#\n'
  refused_at 0 'undefined option #' 'PORTNAME=/\nPORTVERSION=1\nOPTIONS_DEFINE=\\#\n'
  refused_at 0 'bad value of PORTNAME' 'PORTNAME=/\nPORTVERSION=1\nBUILD_DEPENDS=x\n'
  refused_at 0 'bad dependency x' 'PORTNAME=x\nPORTVERSION=1\nBUILD_DEPENDS=x\nIGNORE=no\n'
  file "$vars" 'PORTNAME=x\nPORTVERSION=1\nIGNORE=no\n'
  bulk a/x
  refuses 'poudriere: ports/a/x/port.vars: not yet'
}

check_parts_of_a_name_that_are_refused() {
  local long
  long=$(printf '%065d' 0)
  refusals_of_vars <<END
0|bad value of PKGNAMEPREFIX|PKGNAMEPREFIX=/\nPORTNAME=/
0|bad value of PKGNAMEPREFIX|PKGNAMEPREFIX=$long
0|bad value of PORTNAME|PORTNAME=/\nPKGNAMESUFFIX=/
0|bad value of PORTNAME|PORTNAME=-x
0|bad value of PORTNAME|PORTNAME=.x
0|bad value of PORTNAME|PORTNAME=+x
0|bad value of PORTNAME|PORTNAME=x y
0|bad value of PORTNAME|PORTNAME=x@y
0|bad value of PORTNAME|PORTNAME=\0303\0274
0|bad value of PORTNAME|PORTNAME=$long
0|bad value of PKGNAMESUFFIX|PKGNAMESUFFIX=/\nPORTVERSION=/
0|bad value of PORTVERSION|PORTVERSION=/\nPORTREVISION=/
0|bad value of PORTVERSION|PORTVERSION=1_0
0|bad value of PORTVERSION|PORTVERSION=1-0
0|bad value of PORTVERSION|PORTVERSION=1,0
0|bad value of PORTVERSION|PORTVERSION=$long
0|bad value of PORTREVISION|PORTREVISION=/\nPORTEPOCH=/
0|bad value of PORTREVISION|PORTREVISION=01
0|bad value of PORTREVISION|PORTREVISION=-1
0|bad value of PORTREVISION|PORTREVISION=1000000000
0|bad value of PORTEPOCH|PORTEPOCH=/\nBUILD_DEPENDS=x
0|bad value of PORTEPOCH|PORTEPOCH=00
0|bad value of PORTEPOCH|PORTEPOCH=1 2
END
}

# The whole name has at most 200 bytes.
check_longest_package_name() {
  local part version
  part=$(printf '%064d' 0)
  version=$(printf '%07d' 0)
  port a/x "PORTNAME=$part" "PORTVERSION=$version" "PKGNAMEPREFIX=$part" "PKGNAMESUFFIX=$part"
  bulk a/x
  built a/x "$part$part$part-$version"
  want_package "$part$part$part-$version" a/x
  again
  printf 'PORTREVISION=1\n' >>"$vars"
  bulk a/x
  refuses 'poudriere: ports/a/x/port.vars:0: bad value of PORTNAME'
}

check_longest_parts() {
  local long
  long=$(printf '%064d' 0)
  port a/x "PORTNAME=$long" "PORTVERSION=$long"
  bulk a/x
  built a/x "$long-$long"
  want_package "$long-$long" a/x
}

# A file of 65,536 bytes, and one of 65,537; these come before every line of it.
check_longest_file() {
  port a/x PORTNAME=x PORTVERSION=1.0
  local line
  line=$(printf '#%08190d' 0)
  for _ in 1 2 3 4 5 6 7; do printf '%s\n' "$line" >>"$vars"; done
  printf '#%0*d' "$((65536 - $(wc -c <"$vars") - 1))" 0 >>"$vars"
  bulk a/x
  built_empty
  again
  printf '0' >>"$vars"
  bulk a/x
  refuses 'poudriere: ports/a/x/port.vars:0: too long'
  printf '\nX:=1\n' | cat - "$vars" >longer
  mv longer "$vars"
  bulk a/x
  refuses 'poudriere: ports/a/x/port.vars:0: too long'
}

# A line of 8,192 bytes, and one of 8,193, whether joined or a comment.
check_longest_line() {
  local value comment
  value=X=$(printf '%08190d' 0)
  comment=#$(printf '%08191d' 0)
  port a/x PORTNAME=x PORTVERSION=1.0 "$value" "$comment"
  bulk a/x
  built_empty
  again
  refusals_of_vars <<END
3|too long|${value}0
3|too long|${comment}0
3|too long|:$value
3|too long|X=\\\\\n${value#X=}
3|not text|\0377$value
4|too long|\n${value}0
END
}

# A value of 8,192 bytes, put together from several lines, and one of 8,193.
check_longest_value() {
  local half
  half=$(printf '%04095d' 0)
  port a/x PORTNAME=x PORTVERSION=1.0 "X=$half" "X+=${half}0"
  bulk a/x
  built_empty
  again
  refusals_of_vars <<END
4|too long|X=$half\nX+=${half}00
4|too long|X=$half\nY=\${X}\${X}\${X}
5|too long|X=$half\nX+=${half}0\nX+=
END
}

check_longest_variable() {
  local name
  name=$(printf '%0160d' 0)
  port a/x PORTNAME=x PORTVERSION=1.0 "$name=1"
  bulk a/x
  built_empty
  again
  refusals_of_vars <<END
3|bad name|0$name=1
END
}

check_dependencies_that_are_refused() {
  refusals_of_vars <<'END'
0|bad dependency x|BUILD_DEPENDS=x
0|bad dependency :a/y|LIB_DEPENDS=:a/y
0|bad dependency x:a|RUN_DEPENDS=x:a
0|bad dependency x:a/y@|PKG_DEPENDS=x:a/y@
0|bad dependency x:a/y:b:c|FETCH_DEPENDS=x:a/y:b:c
0|bad dependency x|TEST_DEPENDS=x
0|dependency with a target t:a/y:configure|BUILD_DEPENDS=t:a/y:configure
0|dependency with a target :a/y:t|EXTRACT_DEPENDS=:a/y:t
0|bad dependency t:a:configure|PATCH_DEPENDS=t:a:configure
0|bad dependency 1|RUN_DEPENDS=2\nPKG_DEPENDS=x:a/y 1
0|bad dependency 2|TEST_DEPENDS=1\nRUN_DEPENDS=2
END
}

# At most 256 distinct dependencies may be named; those for tests do not count.
check_most_dependencies() {
  local entries
  entries=$(printf ' x:a/y%s' {1..256})
  port a/x PORTNAME=x PORTVERSION=1.0 "BUILD_DEPENDS=$entries" 'TEST_DEPENDS=x:a/z' 'BUILD_DEPENDS+=y:a/y1'
  bulk a/x
  refuses 'poudriere: ports/a/x/port.vars: not yet'
  printf 'RUN_DEPENDS=x:a/y1 x:a/y2\n' >>"$vars"
  bulk a/x
  refuses 'poudriere: limit Depends: 258'
}
