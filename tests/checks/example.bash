# The example's ports: they compile, and what they compiled runs out of the packages.

# with_example: the example's tree, where there is a compiler.
with_example() {
  command -v cc >/dev/null || skip 'there is no cc'
  cp -R "$top/examples/ports/tree" tree
}

# kept_as NODE PACKAGE PATH [OPTION=STATE ..]: the package must be the record of
# just this file, which is taken out of it to ../taken.
kept_as() {
  local node=$1 package=$2 path=$3
  shift 3
  "$top/scripts/package_file" "packages/$package.pkg" "$path" >../taken
  chmod +x ../taken
  rm -rf ../staged/*
  mkdir -p "../staged/${path%/*}"
  cp ../taken "../staged/$path"
  want_package "$package" "$node" "$@"
}

# says_in_package WORDS NODE PACKAGE PATH [OPTION=STATE ..]: as kept_as, and the
# file is a program that prints the words.
says_in_package() {
  local words=$1 said
  shift
  kept_as "$@"
  said=$(../taken)
  [ "$said" = "$words" ] || miss "$3 of $2 says '$said', not '$words'"
}

check_example_all_ports() {
  with_example
  bulk text/units text/greet demo/hello lang/primes lang/average@all devel/words devel/frequency
  moved=('moved demo/hello text/hello')
  built devel/frequency frequency-0.3 devel/words words-1.2_1 lang/average@double double-average-2.0 \
    lang/average@int int-average-2.0 lang/primes primes-1000,1 text/greet greet-1.1 text/hello hello-1.0 text/units units-7
  says_in_package 'average by double: 2.5' lang/average@double double-average-2.0 bin/average
  says_in_package 'average by int: 2' lang/average@int int-average-2.0 bin/average
  says_in_package '168 primes, the last is 997' lang/primes primes-1000,1 bin/primes
  says_in_package 'hello, world' text/greet greet-1.1 bin/greet BUILDER=off LOUD=off WORLD=on
  says_in_package 'hello from a package' text/hello hello-1.0 bin/hello
  kept_as text/units units-7 share/units.html
  [ "$(grep -c '<td>' ../taken)" = 7 ] || miss 'the page of units has not seven rows'
  kept_as devel/frequency frequency-0.3 bin/frequency
  [ "$(printf 'to be or not to be' | sh ../taken | head -n 1)" = '2 be' ] || miss 'the script does not count words'
  library_of_words
}

# A file of a port that nobody wants is changed: its package would go.
check_example_dry_run() {
  with_example
  bulk lang/average@all text/hello
  built lang/average@double double-average-2.0 lang/average@int int-average-2.0 text/hello hello-1.0
  kept_as lang/average@double double-average-2.0 bin/average
  kept_as lang/average@int int-average-2.0 bin/average
  kept_as text/hello hello-1.0 bin/hello
  printf '\n' >>tree/ports/text/hello/files/hello.c
  bulk -n lang/average@all
  says 0 'would delete 1' '  hello-1.0.pkg new-recipe' 'would keep 2' '  lang/average@double double-average-2.0' \
    '  lang/average@int int-average-2.0' 'would build 0' 'ignored 0' 'would skip 0' 'total 2'
}

# library_of_words: the package of devel/words has a program, a header and an
# archive, and another program can be linked with these two.
library_of_words() {
  local path
  rm -rf ../staged/*
  mkdir ../staged/bin ../staged/include ../staged/lib
  for path in bin/words include/words.h lib/libwords.a; do
    "$top/scripts/package_file" packages/words-1.2_1.pkg "$path" >"../staged/$path"
  done
  want_package words-1.2_1 devel/words
  cp ../staged/bin/words ../taken
  chmod +x ../taken
  [ "$(../taken)" = '9 words, the longest has 12 letters, counted in 4 bytes' ] || miss "words says '$(../taken)'"
  file ../use.c '#include <words.h>\nint main(void) { return count_words("a b c") * 10 + longest_word("ab cd"); }\n'
  cc -I../staged/include -o ../use ../use.c ../staged/lib/libwords.a || miss 'the archive cannot be linked with'
  ../use
  [ $? = 32 ] || miss 'a program linked with the archive counts wrong'
}

# The option reaches the program, by each of the two files that may turn it on.
check_example_options() {
  with_example
  bulk text/greet
  built text/greet greet-1.1
  says_in_package 'hello, world' text/greet greet-1.1 bin/greet BUILDER=off LOUD=off WORLD=on
  again
  file tree/etc/make.conf 'text_greet_SET=LOUD\n'
  bulk text/greet
  built text/greet greet-1.1
  says_in_package 'HELLO, world!' text/greet greet-1.1 bin/greet BUILDER=off LOUD=on WORLD=on
  again
  file tree/etc/options/text_greet/options 'OPTIONS_FILE_UNSET+=LOUD WORLD\nOPTIONS_FILE_SET+=BUILDER\n'
  bulk text/greet
  built text/greet greet-1.1
  says_in_package 'hello, builder' text/greet greet-1.1 bin/greet BUILDER=on LOUD=off WORLD=off
  again
  file tree/etc/options/text_greet/options 'OPTIONS_FILE_SET+=BUILDER\n'
  bulk text/greet
  refuses 'poudriere: ports/text/greet/port.vars:0: option group NAME: BUILDER WORLD'
}

check_example_words() {
  with_example
  local word line
  while IFS='|' read -r word line; do
    bulk "$word"
    refuses "poudriere: $line"
  done <<'END'
devel/abacus|devel/abacus was removed: lang/average does all of it
lang/hen|MOVED comes back: lang/hen lang/egg
lang/average@float|no flavor lang/average@float
demo/none|no origin demo/none
END
}

# A source that its patch does not know ends the port there.
check_example_patch_that_does_not_fit() {
  with_example
  local bundle=tree/ports/devel/words/files/words.bundle
  sed 's/MOST 8/MOST 9/' "$bundle" >changed
  mv changed "$bundle"
  bulk devel/words
  failed devel/words words-1.2_1 patch 1
}

check_failing_compiler() {
  command -v cc >/dev/null || skip 'there is no cc'
  ax 'DO_BUILD=cc -o work/hello work/hello.c' 'DO_STAGE=install -D work/hello stage/bin/hello'
  ax_file hello.c 'int main(void) { return }\n'
  bulk a/x
  failed a/x x-1.0 build 1
}
