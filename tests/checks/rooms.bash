# The room: its folder, what a port's commands may leave there, and what is taken.

room_failed='poudriere: room 0 failed'

check_rooms_is_a_plain_file() {
  ax 'DO_STAGE=cp work/hello stage/hello'
  file rooms 'junk'
  bulk a/x
  says 3 "$room_failed"
  [ "$(cat rooms)" = junk ] || miss 'the file rooms changed'
}

check_old_contents_are_cleared() {
  ax 'DO_STAGE=cp work/hello stage/hello'
  file rooms/00/stage/old old
  file rooms/00/work/old old
  file rooms/00/old old
  file rooms/01/stage/other other
  bulk a/x
  built_with_hello
  [ -z "$(find rooms/00 -name old)" ] || miss 'the room was not emptied'
  [ -e rooms/01/stage/other ] || miss 'another room was touched'
}

check_clearing_does_not_follow_links() {
  ax 'DO_STAGE=cp work/hello stage/hello'
  file precious/keep keep
  mkdir -p rooms/00
  ln -s ../../precious rooms/00/work
  bulk a/x
  built_with_hello
  [ "$(echo precious/*)" = precious/keep ] || miss 'a folder outside the room was touched'
}

check_room_without_stage() {
  ax 'DO_STAGE=rmdir stage'
  bulk a/x
  built_empty
}

check_stage_is_a_plain_file() {
  ax 'DO_BUILD=rmdir stage' 'DO_STAGE=cp work/hello stage'
  bulk a/x
  built_empty
}

check_staged_link() {
  ax 'DO_BUILD=ln -s ../work/hello stage/link' 'DO_STAGE=ln -s ../work stage/folder'
  bulk a/x
  built a/x x-1.0
  staged link 'hi\n'
  staged folder/hello 'hi\n'
  want_package x-1.0 a/x
}

check_staged_dangling_link() {
  ax 'DO_BUILD=cp work/hello stage/hello' 'DO_STAGE=ln -s nowhere stage/link'
  bulk a/x
  says 3 "$room_failed"
}

check_staged_circle() {
  ax 'DO_STAGE=ln -s . stage/again'
  bulk a/x
  says 3 "$room_failed"
}

check_staged_fifo_is_left_out() {
  ax 'DO_BUILD=cp work/hello stage/hello' 'DO_STAGE=mkfifo stage/pipe'
  bulk a/x
  built_with_hello
}

check_staged_empty_folder_is_left_out() {
  ax 'DO_BUILD=cp work/hello stage/hello' 'DO_STAGE=mkdir -p stage/empty/folder'
  bulk a/x
  built_with_hello
}

check_staged_name_that_is_not_utf8() {
  ax 'DO_STAGE=sh work/make'
  ax_file make 'touch "stage/$(printf "\\\\377")"\n'
  (: >$'\xff') 2>/dev/null || skip 'the file system refuses such a name'
  bulk a/x
  says 3 "$room_failed"
}

check_staged_name_too_long() {
  ax "DO_STAGE=touch stage/$(printf '%0201d' 0)"
  bulk a/x
  says 3 "$room_failed"
}

check_longest_staged_name() {
  local long
  long=$(printf '%0200d' 0)
  ax "DO_STAGE=touch stage/$long"
  bulk a/x
  built a/x x-1.0
  staged "$long" ''
  want_package x-1.0 a/x
}

# Where the room is gone, the shell cannot enter it; what it says of that is dropped.
check_room_taken_away() {
  ax 'DO_BUILD=rm -r ../00' 'DO_STAGE=true'
  local code=0
  /bin/sh -c 'cd "$0" && exec "$@" </dev/null >/dev/null 2>&1' nowhere true 2>/dev/null || code=$?
  bulk a/x
  failed a/x x-1.0 stage "$code"
}

# A command sees PATH, and what the shell sets; nothing else of whoever calls.
check_environment_is_path_alone() {
  ax 'DO_STAGE=sh work/show'
  ax_file show 'env | cut -d = -f 1 | grep -v -x -e PWD -e OLDPWD -e SHLVL -e _ >stage/names\nprintf "%s" "$PATH" >stage/path\n'
  CFLAGS=-O3 CDPATH=/tmp LC_ALL=POSIX HOME=/root SECRET=1 bulk a/x
  built a/x x-1.0
  staged names 'PATH\n'
  staged path "$PATH"
  want_package x-1.0 a/x
}

check_environment_without_path() {
  ax 'DO_STAGE=/bin/sh work/show'
  # (grep ends with 1 where it counts none)
  ax_file show '/usr/bin/env | /usr/bin/grep -c SECRET= >stage/count\ntrue\n'
  local timeout
  timeout=$(command -v timeout)
  : >../stderr
  env -i SECRET=1 "$timeout" 60 "$program" bulk a/x <../stdin >../stdout 2>../stderr
  status=$?
  built a/x x-1.0
  staged count '0\n'
  want_package x-1.0 a/x
}
