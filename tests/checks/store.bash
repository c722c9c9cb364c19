# The store: what counts as a package, how a package gets there, and faults.

store_failed='poudriere: store failed'

check_other_names_are_left_alone() {
  ax 'DO_STAGE=cp work/hello stage/hello'
  stored notes 'mine\n'
  stored y.pkg.new 'left by a stop\n'
  stored pkg 'pkg\n'
  bulk a/x
  built_with_hello
}

# A stop may leave NAME.new; the next put of NAME writes over it.
check_unfinished_package_is_written_over() {
  ax 'DO_STAGE=cp work/hello stage/hello'
  file packages/x-1.0.pkg.new "$(printf '%0999d' 0)"
  bulk a/x
  built_with_hello
}

check_folders_in_the_store_are_ignored() {
  ax 'DO_STAGE=cp work/hello stage/hello'
  stored y-1.0.pkg/z.pkg 'z\n'
  bulk a/x
  built_with_hello
}

check_store_with_a_package() {
  ax 'DO_STAGE=cp work/hello stage/hello'
  local name
  # The names come in descending order, so that each is the least so far.
  for name in "$(printf 'z%0200d' 0).pkg" y.pkg x-1.0.pkg a.pkg .pkg; do
    stored "$name" 'p\n'
    bulk a/x
    refuses "poudriere: $name: not yet"
  done
}

check_store_name_that_is_not_utf8() {
  ax 'DO_STAGE=cp work/hello stage/hello'
  mkdir packages
  (: >$'packages/\xff') 2>/dev/null || skip 'the file system refuses such a name'
  : >$'../want/\xff'
  bulk a/x
  says 3 "$store_failed"
  [ ! -e rooms ] || miss 'a room was used'
}

check_store_name_with_a_line_feed() {
  ax 'DO_STAGE=cp work/hello stage/hello'
  stored $'a\nb' ''
  bulk a/x
  says 3 "$store_failed"
}

check_store_is_a_plain_file() {
  ax 'DO_STAGE=cp work/hello stage/hello'
  file packages 'junk'
  rmdir ../want
  file ../want 'junk'
  bulk a/x
  says 3 "$store_failed"
}

check_package_cannot_be_written() {
  ax 'DO_STAGE=cp work/hello stage/hello'
  stored x-1.0.pkg.new/f ''
  bulk a/x
  says 3 "$store_failed"
}
