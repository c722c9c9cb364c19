# Options: their layers, groups, and what the record and the build get of them.

options_file=tree/etc/options/a_x/options

# states STATE ..: a/x was built, and its record has these options.
states() {
  built a/x x-1.0
  want_package x-1.0 a/x "$@"
  again
}

# Each layer over the one before: the port's default, the settings for all
# ports, those for this port, the port's options file.
check_layers_of_options() {
  ax OPTIONS_DEFINE=DOCS
  bulk a/x
  states DOCS=off
  ax OPTIONS_DEFINE=DOCS OPTIONS_DEFAULT=DOCS
  bulk a/x
  states DOCS=on
  file tree/etc/make.conf 'OPTIONS_UNSET=DOCS\n'
  bulk a/x
  states DOCS=off
  file tree/etc/make.conf 'OPTIONS_UNSET=DOCS\na_x_SET=DOCS\n'
  bulk a/x
  states DOCS=on
  file "$options_file" 'OPTIONS_FILE_UNSET+=DOCS\n'
  bulk a/x
  states DOCS=off
  file "$options_file" '_OPTIONS_READ=x-1.0\nOPTIONS_FILE_SET+=DOCS\n'
  file tree/etc/make.conf 'OPTIONS_SET=DOCS\na_x_UNSET=DOCS\n'
  bulk a/x
  states DOCS=on
  rm "$options_file"
  bulk a/x
  states DOCS=off
}

# The lines of the record written out, so that what writes the others is checked too.
check_record_with_an_option() {
  ax OPTIONS_DEFINE=DOCS OPTIONS_DEFAULT=DOCS 'DO_STAGE=cp work/hello stage/hello'
  bulk a/x
  built a/x x-1.0
  printf '%s\n' 'poudriere-recipe 1' 'name x-1.0' 'origin a/x' 'flavor -' 'options 1' 'option DOCS on' 'depends 0' \
    'steps 0 0 0 0 1' 'command 3' cp work/hello stage/hello 'files 1' 'file 3 hello' 'hi' '' 'base 0' >../recipe
  printf '%s\n' 'poudriere-package 2' 'name x-1.0' 'origin a/x' 'flavor -' \
    "recipe $(sha256sum <../recipe | cut -d ' ' -f 1)" 'options 1' 'option DOCS on' 'depends 0' \
    'files 1' 'file 3 hello' 'hi' '' >../unsigned
  { cat ../unsigned && printf 'sha256 %s\n' "$(sha256sum <../unsigned | cut -d ' ' -f 1)"; } >../want/x-1.0.pkg
}

# Each line of standard input has the states `NAME=STATE,..`, then `|` and the
# lines of the port; make.conf and the options file stand as they are.
each_choice() {
  local wanted lines
  while IFS='|' read -r wanted lines; do
    IFS=, read -r -a wanted <<<"$wanted"
    IFS=, read -r -a lines <<<"$lines"
    ax "${lines[@]}"
    bulk a/x
    states "${wanted[@]}"
  done
}

check_choices() {
  each_choice <<'END'
A=off,B=off|OPTIONS_DEFINE=B A B
A=on,B=off|OPTIONS_GROUP=G,OPTIONS_GROUP_G=A B,OPTIONS_DEFAULT=A
A=off,B=on|OPTIONS_SINGLE=G,OPTIONS_SINGLE_G=A B,OPTIONS_DEFAULT=B
A=off,B=off|OPTIONS_RADIO=G,OPTIONS_RADIO_G=A B
A=on,B=on|OPTIONS_MULTI=G,OPTIONS_MULTI_G=A B,OPTIONS_DEFAULT=A B
A=on,B=on,C=on|OPTIONS_DEFINE=A B C,OPTIONS_DEFAULT=A,A_IMPLIES=B,B_IMPLIES=C
A=off,B=on|OPTIONS_DEFINE=A B,OPTIONS_DEFAULT=B,A_IMPLIES=B,A_PREVENTS=B
A=on|OPTIONS_DEFINE=A,OPTIONS_DEFAULT=A,A_IMPLIES=A
A-_9=on|OPTIONS_DEFINE=A-_9,OPTIONS_DEFAULT=A-_9
END
}

# Names that the port does not define mean nothing in make.conf and in the
# options file; a name that a layer has both on and off is off.
check_choices_under_settings() {
  file tree/etc/make.conf 'OPTIONS_SET=A B NONE\nOPTIONS_UNSET=B OTHER\nb_x_UNSET=A\nX=1\n'
  file "$options_file" 'OPTIONS_FILE_SET=NONE\nOPTIONS_SET=C\n'
  each_choice <<'END'
A=on,B=off,C=off|OPTIONS_DEFINE=A B C
A=on,B=on|OPTIONS_DEFINE=A B,A_IMPLIES=B
END
}

# refusals_of_options: for each line `WHAT|LINES` of standard input, a/x with
# these lines is refused so.
refusals_of_options() {
  local what lines
  while IFS='|' read -r what lines; do
    IFS=, read -r -a lines <<<"$lines"
    ax "${lines[@]}"
    bulk a/x
    refuses "poudriere: ports/a/x/port.vars:0: $what"
  done
}

check_options_that_are_refused() {
  refusals_of_options <<'END'
option group DB: none|OPTIONS_SINGLE=DB,OPTIONS_SINGLE_DB=PG MY
option group DB: MY PG|OPTIONS_SINGLE=DB,OPTIONS_SINGLE_DB=PG MY,OPTIONS_DEFAULT=PG MY
option group DB: MY PG|OPTIONS_RADIO=DB,OPTIONS_RADIO_DB=PG MY,OPTIONS_DEFAULT=PG MY
option group DB: none|OPTIONS_MULTI=DB,OPTIONS_MULTI_DB=PG MY
option group DB: none|OPTIONS_SINGLE=DB
option C prevents B|OPTIONS_DEFINE=A B C,OPTIONS_DEFAULT=A C,A_IMPLIES=B,C_PREVENTS=B
option A prevents B|OPTIONS_DEFINE=A B C,OPTIONS_DEFAULT=A B C,C_PREVENTS=A,A_PREVENTS=C B
undefined option A/B|OPTIONS_DEFINE=A/B
undefined option G/|OPTIONS_GROUP=G/ H,OPTIONS_GROUP_H=@
undefined option @|OPTIONS_GROUP=H,OPTIONS_GROUP_H=@
undefined option B|OPTIONS_DEFINE=A,OPTIONS_DEFAULT=A B,A_IMPLIES=C
undefined option C|OPTIONS_DEFINE=A,A_IMPLIES=C
undefined option C|OPTIONS_DEFINE=A,A_PREVENTS=C,A_IMPLIES=A
END
}

# Of two faults the first in this order is told: a word that is no name, a name
# that is not defined, a group (SINGLE, RADIO, MULTI), one that prevents another.
check_order_of_faults_of_options() {
  refusals_of_options <<'END'
undefined option /|OPTIONS_DEFINE=A /,OPTIONS_DEFAULT=B
undefined option B|OPTIONS_SINGLE=G,OPTIONS_SINGLE_G=A,OPTIONS_DEFAULT=B
option group G: none|OPTIONS_MULTI=M,OPTIONS_MULTI_M=B,OPTIONS_SINGLE=G,OPTIONS_SINGLE_G=A
option group R: A B|OPTIONS_MULTI=M,OPTIONS_MULTI_M=C,OPTIONS_RADIO=R,OPTIONS_RADIO_R=A B,OPTIONS_DEFAULT=A B
option group M: none|OPTIONS_MULTI=M,OPTIONS_MULTI_M=C,OPTIONS_DEFINE=A,OPTIONS_DEFAULT=A,A_PREVENTS=A
END
}

# A port defines at most 256 options; that comes before every fault of them.
check_most_options() {
  local options
  options=$(printf ' O%s' {1..255})
  ax "OPTIONS_DEFINE=$options /"
  bulk a/x
  refuses 'poudriere: ports/a/x/port.vars:0: undefined option /'
  ax "OPTIONS_DEFINE=$options / P"
  bulk a/x
  refuses 'poudriere: limit Options: 257'
}

# The words of X_CONFIGURE_ON of the options that are on, in byte order, come
# behind the last command of configure, or are one where there is none.
check_words_of_configure() {
  local configure lines
  configure='cp work/hello work/b ; cp'
  lines=('OPTIONS_DEFINE=B A C' 'A_CONFIGURE_ON=work/b' 'B_CONFIGURE_ON= stage/hello' 'C_CONFIGURE_ON=; false')
  ax "${lines[@]}" 'OPTIONS_DEFAULT=A B' "DO_CONFIGURE=$configure"
  staged hello 'hi\n'
  bulk a/x
  states A=on B=on C=off
  ax "${lines[@]}" 'OPTIONS_DEFAULT=A' "DO_CONFIGURE=$configure"
  bulk a/x
  failed a/x x-1.0 configure 1
  ax OPTIONS_DEFINE=A OPTIONS_DEFAULT=A 'A_CONFIGURE_ON=cp work/hello stage/hello'
  staged hello 'hi\n'
  bulk a/x
  states A=on
  ax OPTIONS_DEFINE=A OPTIONS_DEFAULT=A 'DO_CONFIGURE=sh work/count' 'A_CONFIGURE_ON=; a'
  ax_file count '[ "$*" = "; a" ]\n'
  bulk a/x
  states A=on
}
