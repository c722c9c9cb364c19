# Dry runs, over stores that are made here without the program: what would be
# deleted, kept, built and skipped. Nothing is changed.

# The packages that were made: the names and the marks, by node.
declare -A name_of mark_of

# stored_as_made NODE NAME [OPTION=STATE ..] [-- KIND,NODE ..]: the store has the package
# that the port at the node gives, which has no commands, with these options and
# these dependencies, whose packages were made before; and it must stay.
stored_as_made() {
  local node=$1 name=$2 words=() depends=() recorded=() recipe depend at
  shift 2
  while [ $# -gt 0 ] && [ "$1" != -- ]; do
    words+=("$1")
    shift
  done
  [ $# -eq 0 ] || shift
  for depend; do
    at=${depend#*,}
    depends+=("$depend,${name_of[$at]}")
    recorded+=("$depend,${name_of[$at]},${mark_of[$at]}")
  done
  recipe=$("$tests/make_recipe" "$name" "$node" "tree/ports/${node%@*}/files" "${words[@]}" -- "${depends[@]}" </dev/null | sha256sum)
  mkdir -p packages
  "$tests/make_record" "$name" "$node" no-files "${recipe%% *}" "${words[@]}" -- "${recorded[@]}" >"packages/$name.pkg"
  cp "packages/$name.pkg" "../want/$name.pkg"
  name_of[$node]=$name
  mark_of[$node]=$(tail -c 65 "packages/$name.pkg" | head -c 64)
}

# diamond LINE..: a/top over a/left and a/right, which are over a/bot; a/bot has
# these further lines.
diamond() {
  port a/bot PORTNAME=bot PORTVERSION=1.0 "$@"
  port a/left PORTNAME=left PORTVERSION=1.0 LIB_DEPENDS=libbot.so:a/bot
  port a/right PORTNAME=right PORTVERSION=1.0 LIB_DEPENDS=libbot.so:a/bot
  port a/top PORTNAME=top PORTVERSION=1.0 BUILD_DEPENDS=left:a/left RUN_DEPENDS=right:a/right
}

# made_diamond [OPTION=STATE ..]: the packages of the diamond; a/bot has these options.
made_diamond() {
  stored_as_made a/bot bot-1.0 "$@"
  stored_as_made a/left left-1.0 -- lib,a/bot
  stored_as_made a/right right-1.0 -- lib,a/bot
  stored_as_made a/top top-1.0 -- build,a/left run,a/right
}

check_dry_run_over_an_empty_store() {
  diamond
  bulk -n a/top
  says 0 'would delete 0' 'would keep 0' 'would build 4' '  a/bot bot-1.0' '  a/left left-1.0' \
    '  a/right right-1.0' '  a/top top-1.0' 'ignored 0' 'would skip 0' 'total 4'
  [ ! -e packages ] || miss 'the store was made'
  [ ! -e rooms ] || miss 'a room was used'
}

check_dry_run_over_its_own_store() {
  diamond
  made_diamond
  bulk -n a/top
  says 0 'would delete 0' 'would keep 4' '  a/bot bot-1.0' '  a/left left-1.0' '  a/right right-1.0' \
    '  a/top top-1.0' 'would build 0' 'ignored 0' 'would skip 0' 'total 4'
}

check_dry_run_after_an_option_changed() {
  diamond OPTIONS_DEFINE=NLS
  made_diamond NLS=off
  file tree/etc/make.conf 'OPTIONS_SET=NLS\n'
  bulk -n a/top
  says 0 'would delete 4' '  bot-1.0.pkg new-options' '  left-1.0.pkg missing-depend' \
    '  right-1.0.pkg missing-depend' '  top-1.0.pkg missing-depend' 'would keep 0' 'would build 4' \
    '  a/bot bot-1.0' '  a/left left-1.0' '  a/right right-1.0' '  a/top top-1.0' 'ignored 0' \
    'would skip 0' 'total 4'
}

# a/z is in no list; other.pkg holds a record of another name; bot-1.0.pkg is one
# of version 1, which has no recipe.
check_dry_run_over_packages_that_fit_no_more() {
  diamond
  stored_as_made a/z z-1.0
  stored y.pkg 'no record\n'
  stored_as_made a/bot bot-1.0
  stored other.pkg ''
  cp packages/bot-1.0.pkg packages/other.pkg
  cp packages/bot-1.0.pkg ../want/other.pkg
  head -c -72 packages/other.pkg | sed -e '1s/2/1/' -e '/^recipe /d' >../one
  printf 'sha256 %s\n' "$(sha256sum <../one | cut -d ' ' -f 1)" | cat ../one - >packages/bot-1.0.pkg
  cp packages/bot-1.0.pkg ../want/bot-1.0.pkg
  bulk -n a/bot
  says 0 'would delete 4' '  bot-1.0.pkg old-record' '  other.pkg damaged' '  y.pkg damaged' \
    '  z-1.0.pkg no-port' 'would keep 0' 'would build 1' '  a/bot bot-1.0' 'ignored 0' \
    'would skip 0' 'total 1'
}

check_dry_run_with_all_packages_asked() {
  diamond
  stored_as_made a/bot bot-1.0
  stored y.pkg 'no record\n'
  bulk -n -c a/bot
  says 0 'would delete 2' '  bot-1.0.pkg asked' '  y.pkg asked' 'would keep 0' 'would build 1' \
    '  a/bot bot-1.0' 'ignored 0' 'would skip 0' 'total 1'
}

check_dry_run_with_wanted_packages_asked() {
  diamond
  made_diamond
  bulk -nC a/top
  says 0 'would delete 1' '  top-1.0.pkg asked' 'would keep 3' '  a/bot bot-1.0' '  a/left left-1.0' \
    '  a/right right-1.0' 'would build 1' '  a/top top-1.0' 'ignored 0' 'would skip 0' 'total 4'
}

check_dry_run_over_an_ignored_port() {
  diamond
  port a/left PORTNAME=left PORTVERSION=1.0 'IGNORE=not today'
  bulk -n a/top
  says 1 'would delete 0' 'would keep 0' 'would build 2' '  a/bot bot-1.0' '  a/right right-1.0' \
    'ignored 1' '  a/left left-1.0 not today' 'would skip 1' '  a/top top-1.0 because a/left' 'total 4'
}

check_dry_run_needs_no_room() {
  diamond
  bulk -n -J 65 a/bot
  says 0 'would delete 0' 'would keep 0' 'would build 1' '  a/bot bot-1.0' 'ignored 0' 'would skip 0' 'total 1'
  bulk -n a/none
  refuses 'poudriere: no origin a/none'
}

check_dry_run_over_a_store_that_cannot_be_read() {
  diamond
  ln -s packages packages
  bulk -n a/bot
  says 3 'poudriere: store failed'
  rm packages
}
