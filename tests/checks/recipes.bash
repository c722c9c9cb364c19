# The digest of a package's recipe: all that decides the build goes into it, and nothing else does.

check_recipe_of_one_command() {
  ax 'DO_STAGE=cp work/hello stage/hello'
  bulk a/x
  built_with_hello
  want_recipe x-1.0 a/x <<<'stage cp work/hello stage/hello'
}

check_recipe_of_all_phases() {
  ax 'DO_STAGE=cp work/e stage/hello' 'DO_BUILD=mv work/d work/e' 'DO_CONFIGURE=mv work/c work/d' \
    'DO_PATCH=true ; mv work/b work/c' 'DO_EXTRACT=mv work/hello work/b ; ; true x  y'
  bulk a/x
  built_with_hello
  want_recipe x-1.0 a/x <<'COMMANDS'
extract mv work/hello work/b
extract true x y
patch true
patch mv work/b work/c
configure mv work/c work/d
build mv work/d work/e
stage cp work/e stage/hello
COMMANDS
}

check_recipe_without_commands_and_files() {
  port a/x PORTNAME=x PORTVERSION=1.0
  bulk a/x
  built_empty
  want_recipe x-1.0 a/x </dev/null
}

check_recipe_of_an_option_and_a_variable() {
  ax 'OPTIONS_DEFINE=DOCS NLS' OPTIONS_DEFAULT=DOCS 'TO=stage/hello' 'DO_STAGE=cp work/hello ${TO}' 'DOCS_DO_BUILD=touch work/docs'
  bulk a/x
  built a/x x-1.0
  staged hello 'hi\n'
  want_package x-1.0 a/x DOCS=on NLS=off
  want_recipe x-1.0 a/x DOCS=on NLS=off <<<'stage cp work/hello stage/hello'
}

check_recipes_of_flavors() {
  am 'DO_STAGE=cp work/f stage/f' 'py39_DO_BUILD=cp work/three work/f' 'py311_DO_BUILD=cp work/eleven work/f'
  file tree/ports/a/m/files/three '3.9\n'
  file tree/ports/a/m/files/sub/one 'one\n'
  file tree/ports/a/m/files/eleven '3.11\n'
  bulk a/m@all
  built a/m@py311 py311-m-1.0 a/m@py39 py39-m-1.0
  staged f '3.11\n'
  want_package py311-m-1.0 a/m@py311
  want_recipe py311-m-1.0 a/m@py311 <<'COMMANDS'
build cp work/eleven work/f
stage cp work/f stage/f
COMMANDS
  staged f '3.9\n'
  want_package py39-m-1.0 a/m@py39
  want_recipe py39-m-1.0 a/m@py39 <<'COMMANDS'
build cp work/three work/f
stage cp work/f stage/f
COMMANDS
}

# What the build does not see changes no recipe; a byte of a file does.
check_recipe_of_what_a_build_sees() {
  local first second third
  ax 'DO_STAGE=cp work/hello stage/hello'
  bulk a/x
  built_with_hello
  first=$(recipe_of x-1.0)
  anew
  ax '# a comment' 'UNUSED=1' 'BROKEN=' 'STAGE=cp work/hello stage/hello' 'DO_STAGE=${STAGE}'
  bulk a/x
  built_with_hello
  second=$(recipe_of x-1.0)
  [ -n "$first" ] && [ "$first" = "$second" ] || miss "the recipe '$first' became '$second'"
  anew
  ax 'DO_STAGE=cp work/hello stage/hello'
  ax_file hello 'ho\n'
  bulk a/x
  third=$(recipe_of x-1.0)
  [ "$first" != "$third" ] || miss 'a file changed and the recipe did not'
  built a/x x-1.0
  staged hello 'ho\n'
  want_package x-1.0 a/x
}
