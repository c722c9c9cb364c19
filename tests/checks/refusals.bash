# What is refused as `not yet`, and which refusal comes first.

# Files that are not served yet, in the order in which they are looked for.
check_files_not_yet() {
  ax 'DO_STAGE=cp work/hello stage/hello'
  file tree/etc/poudriere.conf ''
  file tree/base/a/c ''
  file tree/base/a-b ''
  local path
  for path in etc/poudriere.conf base/a-b base/a/c; do
    bulk a/x
    refuses "poudriere: $path: not yet"
    bulk b/none
    refuses "poudriere: $path: not yet"
    bulk
    refuses "$usage"
    rm "tree/$path"
  done
  bulk a/x
  built_with_hello
}

# every_cause: a tree, a store and a place of the rooms with a cause for each
# refusal, but for the usage line.
every_cause() {
  ax
  port a/y PORTNAME=x PORTVERSION=1.0 RUN_DEPENDS=x:a/x
  port a/z PORTNAME
  file tree/etc/make.conf 'X:=1\n'
  file tree/etc/poudriere.conf ''
  file tree/base/f ''
  head -c 4194305 /dev/zero >tree/ports/a/x/files/big
  stored b.pkg b
  stored a.pkg a
  file rooms ''
}

# first_is LINE WORD ..: a run with these words is refused so.
first_is() {
  local line=$1
  shift
  bulk "$@"
  says 2 "poudriere: $line"
}

# Each refusal comes before those whose causes stand behind it here.
check_order_of_refusals() {
  every_cause
  run bulk
  says 2 "$usage"
  first_is 'etc/make.conf:1: bad name' a/y b/none
  rm tree/etc/make.conf
  first_is 'etc/poudriere.conf: not yet' a/y b/none
  rm tree/etc/poudriere.conf
  first_is 'base/f: not yet' a/y b/none
  rm tree/base/f
  first_is 'ports/a/z/port.vars:1: no operator' a/y b/none
  port a/z PORTNAME=z PORTVERSION=1
  first_is 'a/x and a/y are both x-1.0' a/y b/none
  port a/y PORTNAME=y PORTVERSION=1 RUN_DEPENDS=x:a/x
  first_is 'no origin b/none' a/y b/none
  first_is 'ports/a/y/port.vars: not yet' a/y a/x
  port a/y PORTNAME=y PORTVERSION=1
  first_is 'ports/a/x/files/big: not yet' a/y a/x
  rm tree/ports/a/x/files/big
  first_is 'a.pkg: not yet' a/y a/x
  rm packages/*.pkg ../want/*.pkg
  bulk a/y a/x
  says 3 'poudriere: room 0 failed'
}

# The refusals of words are of one rank: the first word that has one is told.
check_order_of_words() {
  ax
  am
  file tree/ports/MOVED 'a/gone||2024|old\na/c|a/c|2024|x\n'
  bulk b/none a/m@py27 a/gone a/c
  refuses 'poudriere: no origin b/none'
  bulk a/m@py27 a/gone a/c b/none
  refuses 'poudriere: no flavor a/m@py27'
  bulk a/gone a/c b/none a/m@py27
  refuses 'poudriere: a/gone was removed: old'
  bulk a/c b/none a/m@py27 a/gone
  refuses 'poudriere: MOVED comes back: a/c'
}

# not_yet_for LINE ..: a port with any of these lines is refused when it is
# wanted; wanting another port of the tree builds that one.
not_yet_for() {
  local line
  port b/other PORTNAME=other PORTVERSION=1
  for line in "$@"; do
    ax "$line"
    bulk b/other a/x
    refuses 'poudriere: ports/a/x/port.vars: not yet'
    bulk b/other
    built b/other other-1
    want_package other-1 b/other
    again
  done
}

check_ports_not_yet() {
  not_yet_for PKG_DEPENDS=x:a/y FETCH_DEPENDS=x:a/y EXTRACT_DEPENDS=x:a/y PATCH_DEPENDS=x:a/y BUILD_DEPENDS=x:a/y \
    LIB_DEPENDS=x:a/y RUN_DEPENDS=x:a/y@py39 BUILD_DEPENDS=x:b/other IGNORE=no FORBIDDEN=no BROKEN=no
}

# What is set to nothing is not set, and dependencies of tests are not used.
check_ports_served() {
  local line
  for line in BUILD_DEPENDS= IGNORE= FORBIDDEN= BROKEN= TEST_DEPENDS=x:a/y py39_IGNORE=no DOCS_RUN_DEPENDS=x:a/y; do
    ax "$line" 'DO_STAGE=cp work/hello stage/hello'
    bulk a/x
    built_with_hello
    again
  done
}

# With TRYBROKEN, too, a port that is marked as broken is refused.
check_broken_port_asked_for() {
  ax BROKEN=yes
  file tree/etc/make.conf 'TRYBROKEN=yes\n'
  bulk a/x
  refuses 'poudriere: ports/a/x/port.vars: not yet'
}

# The least wanted node that is not served is told, and only then the files.
check_first_port_not_yet() {
  ax
  head -c 4194305 /dev/zero >tree/ports/a/x/files/big
  port a/y PORTNAME=y PORTVERSION=1 IGNORE=no
  port a/z PORTNAME=z PORTVERSION=1 BUILD_DEPENDS=x:a/y
  bulk a/z a/y a/x
  refuses 'poudriere: ports/a/y/port.vars: not yet'
  bulk a/z a/x
  refuses 'poudriere: ports/a/z/port.vars: not yet'
  bulk a/x
  refuses 'poudriere: ports/a/x/files/big: not yet'
}

# Only the wanted flavor counts: of these two one is ignored, the other depends
# on a port by an option.
check_flavors_not_yet() {
  am py311_IGNORE=no
  bulk a/m@py39
  built a/m@py39 py39-m-1.0
  want_package py39-m-1.0 a/m@py39
  again
  bulk a/m@py311
  refuses 'poudriere: ports/a/m/port.vars: not yet'
  am OPTIONS_DEFINE=GUI GUI_RUN_DEPENDS=x:a/y
  bulk a/m@py311
  built a/m@py311 py311-m-1.0
  want_package py311-m-1.0 a/m@py311 GUI=off
  again
  file tree/etc/make.conf 'OPTIONS_SET=GUI\n'
  bulk a/m@py311
  refuses 'poudriere: ports/a/m/port.vars: not yet'
}

# Names that stand where a file is looked for, and are folders, are no files.
check_folders_in_the_place_of_files() {
  ax 'DO_STAGE=cp work/hello stage/hello'
  mkdir -p tree/etc/make.conf tree/etc/poudriere.conf tree/etc/options/a_x/options tree/ports/MOVED tree/base/bin
  bulk a/x
  built_with_hello
}

check_no_tree() {
  bulk a/x
  refuses 'poudriere: ports/subdir.vars:0: absent'
}

check_first_file_too_large() {
  ax
  mkdir tree/ports/a/x/files/a
  head -c 4194305 /dev/zero >tree/ports/a/x/files/a/c
  head -c 4194305 /dev/zero >tree/ports/a/x/files/a-b
  bulk a/x
  refuses 'poudriere: ports/a/x/files/a-b: not yet'
}

# The files of a port that is not wanted are not read.
check_file_too_large_of_another_port() {
  ax 'DO_STAGE=cp work/hello stage/hello'
  port a/y PORTNAME=y PORTVERSION=1
  mkdir tree/ports/a/y/files
  head -c 4194305 /dev/zero >tree/ports/a/y/files/big
  bulk a/x
  built_with_hello
}

check_largest_file() {
  ax 'DO_STAGE=cp work/hello stage/hello'
  head -c 4194304 /dev/zero >tree/ports/a/x/files/big
  bulk a/x
  built_with_hello
}

# MOVED is read before the categories; one more byte than it may have.
check_moved_too_large() {
  ax 'DO_STAGE=cp work/hello stage/hello'
  { printf '#' && head -c 4194303 /dev/zero | tr '\0' x; } >tree/ports/MOVED
  bulk a/x
  built_with_hello
  again
  printf 'x' >>tree/ports/MOVED
  file tree/ports/a/subdir.vars X
  bulk a/x
  refuses 'poudriere: ports/MOVED: not yet'
  file tree/ports/subdir.vars X
  bulk a/x
  refuses 'poudriere: ports/subdir.vars:1: no operator'
}

check_settings_that_are_refused() {
  ax
  local line kind text
  while IFS='|' read -r line kind text; do
    file tree/etc/make.conf "$text\n"
    bulk a/x
    refuses "poudriere: etc/make.conf:$line: $kind"
  done <<'END'
1|bad name|X:=1
2|no operator|OPTIONS_SET=\nX
1|bad reference|X=${PREFIX}
3|not text|\n\n# \0377
END
  head -c 65537 /dev/zero >tree/etc/make.conf
  bulk a/x
  refuses 'poudriere: etc/make.conf:0: too long'
}
