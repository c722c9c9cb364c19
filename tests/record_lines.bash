# The lines that package records and recipes have in common (docs/FORMATS.md), written without the program. tests/make_record
# and tests/make_recipe read this file and set `name`, `node` and `folder` before.

# read_words OPTION=STATE .. [-- DEPEND ..]: the options, and the words of each dependency joined by
# commas: KIND,NODE,NAME in a recipe, KIND,NODE,NAME,MARK in a record. Both in their order.
read_words() {
  options=() depends=()
  while [ $# -gt 0 ] && [ "$1" != -- ]; do
    options+=("$1")
    shift
  done
  [ $# -eq 0 ] || shift
  depends=("$@")
}

# name_lines: the package's name, its port's origin and its flavor.
name_lines() {
  local origin=${node%@*} flavor=-
  [ "$origin" = "$node" ] || flavor=${node#*@}
  printf 'name %s\norigin %s\nflavor %s\n' "$name" "$origin" "$flavor"
}

option_lines() {
  local option
  printf 'options %s\n' "${#options[@]}"
  for option in "${options[@]}"; do
    printf 'option %s %s\n' "${option%=*}" "${option#*=}"
  done
}

depend_lines() {
  local depend
  printf 'depends %s\n' "${#depends[@]}"
  for depend in "${depends[@]}"; do
    printf 'depend %s\n' "${depend//,/ }"
  done
}

paths() {
  [ -d "$folder" ] || return
  (cd "$folder" && find . -type f | cut -c 3- | sort)
}

# file_pieces: the files below the folder, in byte order of their paths.
file_pieces() {
  printf 'files %s\n' "$(paths | wc -l)"
  paths | while IFS= read -r path; do
    printf 'file %s %s\n' "$(wc -c <"$folder/$path")" "$path"
    cat "$folder/$path"
    printf '\n'
  done
}

digest() { sha256sum | cut -d ' ' -f 1; }
