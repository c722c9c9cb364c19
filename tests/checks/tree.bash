# The tree folder: links, names, and what is no plain file.

tree_failed='poudriere: tree failed'

# tree_fails: the run ended because the tree could not be read.
tree_fails() {
  says 3 "$tree_failed"
  [ ! -e rooms ] || miss 'a room was used'
}

check_dangling_link() {
  ax 'DO_STAGE=cp work/hello stage/hello'
  ln -s nowhere tree/ports/a/x/files/link
  bulk a/x
  tree_fails
}

check_circle_of_links() {
  ax 'DO_STAGE=cp work/hello stage/hello'
  ln -s b tree/ports/a/x/files/a
  ln -s a tree/ports/a/x/files/b
  bulk a/x
  tree_fails
}

check_folder_that_holds_itself() {
  ax 'DO_STAGE=cp work/hello stage/hello'
  ln -s . tree/ports/a/x/files/again
  bulk a/x
  tree_fails
}

check_name_that_is_not_utf8() {
  ax 'DO_STAGE=cp work/hello stage/hello'
  (: >$'tree/ports/a/x/files/\xff') 2>/dev/null || skip 'the file system refuses such a name'
  bulk a/x
  tree_fails
}

check_name_longer_than_a_part() {
  ax 'DO_STAGE=cp work/hello stage/hello'
  ax_file "$(printf '%0201d' 0)" ''
  bulk a/x
  tree_fails
}

check_name_with_a_line_feed() {
  ax 'DO_STAGE=cp work/hello stage/hello'
  ax_file $'a\nb' ''
  bulk a/x
  tree_fails
}

# Every listed folder counts: that which is looked into before the port, too.
check_bad_names_below_base() {
  ax 'DO_STAGE=cp work/hello stage/hello'
  mkdir -p tree/base
  ln -s nowhere tree/base/link
  bulk a/x
  tree_fails
}

# Folders that are not listed are not looked into: those of ports that are not
# wanted, and those of which only one file is read.
check_bad_names_elsewhere() {
  ax 'DO_STAGE=cp work/hello stage/hello'
  port a/y PORTNAME=y PORTVERSION=1
  mkdir -p tree/ports/a/y/files tree/ports/b tree/distfiles tree/etc/options/a_x
  local folder
  for folder in tree tree/ports tree/ports/a tree/ports/a/x tree/ports/a/y/files tree/ports/b tree/distfiles tree/etc \
    tree/etc/options tree/etc/options/a_x; do
    ln -s nowhere "$folder/link"
  done
  bulk a/x
  built_with_hello
}

# A file that is a link to nothing, or one in a circle, cannot be read. That is
# told at the file's place among the refusals.
check_files_that_cannot_be_read() {
  local path to files=(etc/make.conf etc/poudriere.conf ports/subdir.vars ports/MOVED ports/a/subdir.vars
    etc/options/a_x/options ports/a/x/port.vars)
  for path in "${files[@]}"; do
    for to in nowhere "${path##*/}"; do
      rm -rf tree
      ax
      port a/y PORTNAME
      mkdir -p "tree/${path%/*}"
      ln -s -f "$to" "tree/$path"
      bulk b/none
      tree_fails
    done
  done
}

# A port's files are listed behind all refusals of the tree, of the words and of
# what the wanted ports say, and before the store is.
check_fault_behind_a_refusal() {
  ax PORTNAME=/
  ln -s nowhere tree/ports/a/x/files/link
  port a/y PORTNAME=y PORTVERSION=1 IGNORE=no
  stored a.pkg ''
  bulk a/x
  refuses 'poudriere: ports/a/x/port.vars:0: bad value of PORTNAME'
  ax
  bulk b/none a/x
  refuses 'poudriere: no origin b/none'
  bulk a/y a/x
  refuses 'poudriere: ports/a/y/port.vars: not yet'
  bulk a/x
  tree_fails
}

# The files of the wanted ports are read in the order of their nodes.
check_fault_behind_a_large_file() {
  ax
  port a/y PORTNAME=y PORTVERSION=1
  mkdir tree/ports/a/y/files
  ln -s nowhere tree/ports/a/y/files/link
  head -c 4194305 /dev/zero >tree/ports/a/x/files/big
  bulk a/y a/x
  refuses 'poudriere: ports/a/x/files/big: not yet'
  bulk a/y
  tree_fails
  mv tree/ports/a/x/files/big tree/ports/a/y/files/big
  rm tree/ports/a/y/files/link
  ln -s nowhere tree/ports/a/x/files/link
  bulk a/y a/x
  tree_fails
}

check_links_are_read_through() {
  ax 'DO_STAGE=cp -R work/. stage'
  rm tree/ports/a/x/files/hello
  file outside/hello 'hi\n'
  file outside/folder/f 'f\n'
  ln -s ../../../../../outside/hello tree/ports/a/x/files/hello
  ln -s ../../../../../outside/folder tree/ports/a/x/files/g
  staged g/f 'f\n'
  bulk a/x
  built_with_hello
}

# In byte order `a-b/c` stands between `a` and `a/c`, so a folder's files need not stand side by side.
check_folders_whose_names_begin_alike() {
  ax 'DO_STAGE=cp -R work/. stage'
  file tree/ports/a/x/files/a/c 'deep\n'
  file tree/ports/a/x/files/a-b/c 'beside\n'
  staged a-b/c 'beside\n'
  staged a/c 'deep\n'
  bulk a/x
  built_with_hello
}

check_fifo_in_the_tree_is_left_out() {
  ax 'DO_STAGE=cp -R work/. stage'
  mkfifo tree/ports/a/x/files/pipe
  bulk a/x
  built_with_hello
}

# A fifo, too, is no file: what it would say is as absent.
check_fifos_in_the_place_of_files() {
  ax
  mkdir -p tree/etc/options/a_x
  mkfifo tree/etc/make.conf tree/etc/poudriere.conf tree/etc/options/a_x/options tree/ports/MOVED
  bulk a/x
  built_empty
  again
  rm tree/ports/a/x/port.vars
  mkfifo tree/ports/a/x/port.vars
  bulk a/x
  refuses 'poudriere: ports/a/x/port.vars:0: absent'
}

# A plain file has no file below it.
check_files_in_the_place_of_folders() {
  port a/x PORTNAME=x PORTVERSION=1.0
  file tree/ports/a/x/files ''
  file tree/base ''
  file tree/etc ''
  bulk a/x
  built_empty
}
