# The lists of the tree, and which of its files is told first.

# lists_refuse: for each line `PATH|LINE|KIND|TEXT` of standard input, that file
# of these bytes beside the port a/x is refused so.
lists_refuse() {
  local path line kind text
  while IFS='|' read -r path line kind text; do
    rm -rf tree
    ax
    file "tree/$path" "$text\n"
    bulk a/x
    refuses "poudriere: $path:$line: $kind"
  done
}

check_lists_that_are_refused() {
  lists_refuse <<'END'
ports/subdir.vars|1|no operator|SUBDIR
ports/subdir.vars|2|bad name|SUBDIR=a\nX:=1
ports/subdir.vars|0|bad value of SUBDIR|SUBDIR=a -b
ports/subdir.vars|0|bad value of SUBDIR|SUBDIR=a a/x
ports/subdir.vars|0|bad value of SUBDIR|SUBDIR=.
ports/a/subdir.vars|1|no operator|SUBDIR
ports/a/subdir.vars|3|bad reference|\n\nSUBDIR=${PORTS}
ports/a/subdir.vars|0|bad value of SUBDIR|SUBDIR=x .y
ports/a/subdir.vars|0|bad value of SUBDIR|SUBDIR=x x@py39
etc/options/a_x/options|2|bad name|OPTIONS_FILE_SET=X\nX:=1
ports/MOVED|1|bad line|a/y|a/x
ports/MOVED|2|bad line|# moved\n # a/y
ports/MOVED|3|bad line|a/y|a/x||\n\na|a/x||
ports/MOVED|1|bad line|a/y|a|2024|moved
ports/MOVED|1|bad line||a/x|2024|moved
ports/MOVED|1|bad line|a/y |a/x|2024|moved
ports/MOVED|1|bad line|a/y|a/x|2024|\0377
ports/MOVED|1|bad line|# \0
END
}

check_files_that_lists_name_are_absent() {
  ax
  rm tree/ports/a/x/port.vars
  bulk a/x
  refuses 'poudriere: ports/a/x/port.vars:0: absent'
  mkdir tree/ports/a/x/port.vars
  bulk a/x
  refuses 'poudriere: ports/a/x/port.vars:0: absent'
  rm tree/ports/a/subdir.vars
  bulk a/x
  refuses 'poudriere: ports/a/subdir.vars:0: absent'
  rm tree/ports/subdir.vars
  bulk a/x
  refuses 'poudriere: ports/subdir.vars:0: absent'
}

# Every port of the tree is read, not only those that are wanted.
check_faults_of_other_ports() {
  ax
  port b/y PORTNAME=y
  bulk a/x
  refuses 'poudriere: ports/b/y/port.vars:0: missing PORTVERSION'
  bulk b/none
  refuses 'poudriere: ports/b/y/port.vars:0: missing PORTVERSION'
}

# A port is there only where its category's list names it, and the category is
# named by the list of categories.
check_ports_that_no_list_names() {
  ax
  port a/y PORTNAME
  port b/z PORTNAME
  printf 'SUBDIR=x\n' >tree/ports/a/subdir.vars
  printf 'SUBDIR=a\n' >tree/ports/subdir.vars
  local word
  for word in a/y b/z; do
    bulk "$word"
    refuses "poudriere: no origin $word"
  done
  bulk a/x
  built_empty
}

check_lists_in_other_forms() {
  local list
  for list in 'SUBDIR=x' 'SUBDIR= \tx x\t\tx' '# ports\nSUBDIR=\\\n x # y' 'X=x\nSUBDIR+=${X}' 'SUBDIR=\nSUBDIR+=x\nX=y'; do
    ax
    file tree/ports/a/subdir.vars "$list"
    bulk a/x
    built_empty
    again
  done
}

check_lists_of_nothing() {
  local list
  for list in '' '#\n' 'SUBDIR=' 'X=a'; do
    ax
    file tree/ports/subdir.vars "$list"
    bulk a/x
    refuses 'poudriere: no origin a/x'
    ax
    file tree/ports/subdir.vars 'SUBDIR=a\n'
    file tree/ports/a/subdir.vars "$list"
    bulk a/x
    refuses 'poudriere: no origin a/x'
    rm -r tree
  done
}

# fault PATH: a line there that no variable file may have.
fault() { file "tree/$1" 'X\n'; }

# The files are read in this order, so that with a fault in each of them the
# first is told. That file is then mended.
check_order_of_the_files() {
  ax
  port a/x-1 PORTNAME=x-1 PORTVERSION=1
  port a-b/y PORTNAME=y PORTVERSION=1
  cp -R tree good
  local path files=(etc/make.conf ports/subdir.vars ports/MOVED ports/a/subdir.vars etc/options/a_x/options
    ports/a/x/port.vars etc/options/a_x-1/options ports/a/x-1/port.vars ports/a-b/subdir.vars
    etc/options/a-b_y/options ports/a-b/y/port.vars)
  for path in "${files[@]}"; do fault "$path"; done
  for path in "${files[@]}"; do
    bulk b/none
    case $path in
      ports/MOVED) refuses "poudriere: $path:1: bad line" ;;
      *) refuses "poudriere: $path:1: no operator" ;;
    esac
    rm "tree/$path"
    [ ! -e "good/$path" ] || cp "good/$path" "tree/$path"
  done
  bulk a/x
  built_empty
}

check_two_ports_of_one_name() {
  ax
  port a/y PORTNAME=x PORTVERSION=1.0
  bulk a/x
  refuses 'poudriere: a/x and a/y are both x-1.0'
  bulk b/none
  refuses 'poudriere: a/x and a/y are both x-1.0'
  port a/w PORTNAME=w PORTVERSION=1
  port a/z PORTNAME=x PORTVERSION=1.0
  port b/v PORTNAME=w PORTVERSION=1
  bulk a/x
  refuses 'poudriere: a/w and b/v are both w-1'
}

check_two_flavors_of_one_name() {
  am py39_PKGNAMEPREFIX=py311-
  bulk a/m
  refuses 'poudriere: a/m@py311 and a/m@py39 are both py311-m-1.0'
}

# Packages of one name are found whether or not their ports would be built.
check_two_ports_of_one_name_ignored() {
  ax IGNORE=no
  port a/y PORTNAME=x PORTVERSION=1.0 BROKEN=yes
  bulk b/none
  refuses 'poudriere: a/x and a/y are both x-1.0'
}

# wide_tree PORT..: a tree of eight categories, each with these ports of two lines.
wide_tree() {
  local category port
  mkdir -p tree/ports
  printf 'SUBDIR=%s\n' 'c0 c1 c2 c3 c4 c5 c6 c7' >tree/ports/subdir.vars
  for category in c{0..7}; do
    mkdir -p "${@/#/tree/ports/$category/}"
    printf 'SUBDIR += %s\n' "$@" >"tree/ports/$category/subdir.vars"
    for port in "$@"; do
      printf 'PORTNAME=%s-%s\nPORTVERSION=1\n' "$category" "$port" >"tree/ports/$category/$port/port.vars"
    done
  done
}

# A tree has at most 65,535 nodes, which are counted behind all files: here 65,536
# ports, then one fewer.
check_most_nodes() {
  local -a ports
  read -r -a ports <<<"$(seq -s ' ' -f 'p%04.0f' 0 8191)"
  wide_tree "${ports[@]}"
  bulk c3/p0007
  refuses 'poudriere: limit Nodes: 65536'
  printf 'PORTNAME\n' >tree/ports/c7/p8191/port.vars
  bulk c3/p0007
  refuses 'poudriere: ports/c7/p8191/port.vars:1: no operator'
  sed -i '$d' tree/ports/c7/subdir.vars
  bulk c3/p0007
  built c3/p0007 c3-p0007-1
  want_package c3-p0007-1 c3/p0007
}

# Descriptions have at most 268,435,456 bytes, those of a port counted once for
# each of its nodes. Here 65 ports have 1,024 flavors each and 4,129 bytes, so the
# 64th passes it; their nodes are too many, which would be told behind all files.
check_most_bytes_of_descriptions() {
  local number flavors
  flavors=$(echo x{{a..z},{0..5}}{{a..z},{0..5}})
  for number in {10..74}; do
    port "a/p$number" PORTNAME=x PORTVERSION=1 "FLAVORS=$flavors"
  done
  bulk b/none
  refuses 'poudriere: limit VarsBytes: 270598144'
  sed -i 1d tree/ports/a/p73/port.vars
  bulk b/none
  refuses 'poudriere: ports/a/p73/port.vars:0: missing PORTNAME'
}

# A list may be one line of 600,000 bytes; a description's lines stay short.
check_a_long_list() {
  ax "A=$(printf '%8200s' x)"
  printf 'SUBDIR=x%599992s\n' x >tree/ports/a/subdir.vars
  bulk a/x
  refuses 'poudriere: ports/a/x/port.vars:3: too long'
  sed -i '$d' tree/ports/a/x/port.vars
  bulk a/x
  built_empty
}
