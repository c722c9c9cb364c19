# One port from its file to its package, and to its failure.

check_first_port() {
  ax 'DO_STAGE=cp work/hello stage/hello'
  bulk a/x
  built a/x x-1.0
  # The record written out, so that nothing here computes it.
  printf '%s\n' 'poudriere-package 2' 'name x-1.0' 'origin a/x' 'flavor -' \
    'recipe 5bb9fb0547b736ae91fe7da237bf325586eb7f309fbc0d9f6ce459f4aa4cd077' \
    'options 0' 'depends 0' 'files 1' 'file 3 hello' 'hi' '' \
    'sha256 ee95798e037e6c5bd430a7e165a158e107f5ab6314d1427c808911fcf5e53ba9' >../want/x-1.0.pkg
  [ "$(wc -c <packages/x-1.0.pkg)" = 240 ] || miss 'the record has not 240 bytes'
}

# The phases run in their order, each in what the ones before it left.
check_all_phases() {
  ax 'DO_STAGE=cp work/e stage/hello' 'DO_BUILD=mv work/d work/e' 'DO_CONFIGURE=mv work/c work/d' \
    'DO_PATCH=mv work/b work/c' 'DO_EXTRACT=mv work/hello work/b'
  bulk a/x
  built_with_hello
}

# A word `;` ends a command; a command without words is none.
check_commands_of_a_phase() {
  local commands
  for commands in 'cp work/hello work/b ; cp work/b stage/hello' '; ; cp work/hello work/b ;  ; cp work/b stage/hello ;' \
    'sh -c false;true ; cp work/hello stage/hello'; do
    ax "DO_STAGE=$commands"
    bulk a/x
    built_with_hello
    again
  done
}

check_empty_commands() {
  local commands
  for commands in ';' '; ;' ';;x'; do
    ax "DO_STAGE=$commands"
    bulk a/x
    if [ "$commands" = ';;x' ]; then
      failed a/x x-1.0 stage 127
    else
      built_empty
    fi
    again
  done
}

# The command that fails ends its phase and the port: nothing behind it runs.
check_each_phase_can_fail() {
  local phase code variable
  while read -r phase code; do
    variable=DO_${phase^^}
    ax 'DO_EXTRACT=true' 'DO_PATCH=true' 'DO_CONFIGURE=true' 'DO_BUILD=true' 'DO_STAGE=true' \
      "$variable=touch ../../ran-before ; sh work/end $code ; touch ../../ran-behind"
    [ "$phase" = stage ] || printf 'DO_STAGE=touch ../../ran-behind\n' >>tree/ports/a/x/port.vars
    ax_file end 'exit $1\n'
    bulk a/x
    failed a/x x-1.0 "$phase" "$code"
    [ -e ran-before ] || miss "nothing ran before the command of $phase"
    [ ! -e ran-behind ] || miss "something ran behind the command of $phase"
    rm -f ran-before
    again
  done <<'END'
extract 1
patch 2
configure 77
build 254
stage 255
END
}

check_no_commands() {
  ax
  bulk a/x
  built_empty
}

check_port_without_files() {
  port a/x PORTNAME=x PORTVERSION=1.0 'DO_STAGE=touch stage/empty'
  bulk a/x
  built a/x x-1.0
  staged empty ''
  want_package x-1.0 a/x
}

# names_of_packages: for each line `NAME LINE ..` of standard input, a port with
# these further lines has a package of this name.
names_of_packages() {
  local name lines
  while read -r name lines; do
    # shellcheck disable=SC2086
    port www/folder.1 PORTNAME=x PORTVERSION=1.0 $lines
    bulk www/folder.1
    built www/folder.1 "$name"
    want_package "$name" www/folder.1
    again
  done
}

check_package_names() {
  names_of_packages <<'END'
x-1.0 PORTREVISION=0
x-1.0 PORTEPOCH=0
x-1.0,1 PORTEPOCH=1
x-1.0_2 PORTREVISION=2
x-1.0_2,1 PORTREVISION=2 PORTEPOCH=1
x-1.0 PORTREVISION= PORTEPOCH= PKGNAMEPREFIX= PKGNAMESUFFIX=
x-1.0_999999999,999999999 PORTREVISION=999999999 PORTEPOCH=999999999
_py-Tool9-68.0.a PORTNAME=_py-Tool9 PORTVERSION=68.0.a
py39-x-nox11-1.0 PKGNAMEPREFIX=py39- PKGNAMESUFFIX=-nox11
--x+.-1.0+a PKGNAMEPREFIX=-- PKGNAMESUFFIX=+. PORTVERSION=1.0+a
x.y+-1 PORTNAME=x.y+ PORTVERSION=1
END
}

# The files of a package stand in the byte order of their whole paths.
check_many_files() {
  ax 'DO_STAGE=cp -R work/. stage'
  staged hello 'hi\n'
  local path
  for path in a-b a/c a/c.d 'a/with space' B 'z/1/2/3/4' $'\xc3\xbc'; do
    ax_file "$path" 'x\0\n\0377y'
    staged "$path" 'x\0\n\0377y'
  done
  ax_file empty ''
  staged empty ''
  bulk a/x
  built a/x x-1.0
  want_package x-1.0 a/x
}

check_failing_build() {
  ax 'DO_BUILD=sh work/end3' 'DO_STAGE=touch ../../stage-ran'
  ax_file end3 'exit 3\n'
  bulk a/x
  failed a/x x-1.0 build 3
  [ ! -e stage-ran ] || miss 'the stage phase ran after a failed build'
}

check_failing_stage() {
  ax 'DO_STAGE=sh work/end255'
  ax_file end255 'cp work/hello stage/hello\nexit 255\n'
  bulk a/x
  failed a/x x-1.0 stage 255
}

check_killed_by_a_signal() {
  local signal
  for signal in KILL TERM SEGV; do
    ax 'DO_BUILD=sh work/die'
    ax_file die "kill -$signal \$\$\n"
    bulk a/x
    failed a/x x-1.0 build 255
    again
  done
}

check_program_that_is_not_there() {
  ax 'DO_BUILD=no-such-program-here'
  bulk a/x
  failed a/x x-1.0 build 127
}

# The words of a command reach its program as they stand; no shell reads them.
check_words_are_not_expanded() {
  ax 'DO_BUILD=sh work/count *  "a b" ~ a&&b'
  ax_file count '[ $# = 5 ] && [ "$1$2$3$4$5" = '"'"'*"ab"~a&&b'"'"' ]\n'
  bulk a/x
  built_empty
}

check_commands_read_and_write_nothing_outside() {
  ax 'DO_BUILD=sh work/talk' 'DO_STAGE=cp work/hello stage/hello'
  ax_file talk 'echo out\necho err >&2\nread line && exit 9\nexit 0\n'
  bulk a/x
  built_with_hello
}

# A package weighs, over its files, the bytes of contents and path and 16.
check_heaviest_package() {
  ax 'DO_STAGE=cp work/big stage/big'
  head -c 524269 /dev/zero >tree/ports/a/x/files/big
  bulk a/x
  built a/x x-1.0
  cp tree/ports/a/x/files/big ../staged/big
  want_package x-1.0 a/x
}

check_package_too_heavy() {
  ax 'DO_STAGE=cp work/big stage/big'
  local size
  for size in 524270 600000 3000000; do
    head -c "$size" /dev/zero >tree/ports/a/x/files/big
    bulk a/x
    failed a/x x-1.0 package 2
    again
  done
}

check_nothing_else_is_made() {
  ax 'DO_STAGE=cp work/hello stage/hello'
  find tree | sort >../tree-before
  bulk a/x
  built_with_hello
  find tree | sort | cmp -s - ../tree-before || miss 'the tree changed'
  [ "$(echo ./*)" = './packages ./rooms ./tree' ] || miss "the folder holds $(echo ./*)"
  [ "$(echo rooms/*)" = rooms/00 ] || miss "there are rooms $(echo rooms/*)"
}

# The same tree gives the same bytes.
check_two_runs_agree() {
  ax 'DO_STAGE=cp work/hello stage/hello'
  bulk a/x
  built_with_hello
  again
  bulk a/x
  built_with_hello
}
