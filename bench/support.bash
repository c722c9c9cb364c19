# What the benches share; each reads it from the top of the repository. It leaves
# the bench in a fresh folder, which is removed at its end.
#
# POUDRIERE names another program to time than the one that scripts/build makes.
set -u
export LC_ALL=C

bench=${0##*/}
program=${POUDRIERE:-$PWD/crates/poudriere_cli/out/poudriere_cli}

stop() {
  printf '%s: %s\n' "$bench" "$*" >&2
  exit 1
}

[ -x "$program" ] || stop "there is no program $program; scripts/build makes it"

work=$(mktemp -d) || exit 1
trap 'rm -rf "$work"' EXIT
cd "$work" || exit 1

# timed FILE COMMAND..: appends the microseconds that the command took.
timed() {
  local times=$1 from to
  shift
  from=${EPOCHREALTIME/./}
  "$@" >printed || stop "$* ended with $?"
  to=${EPOCHREALTIME/./}
  printf '%s\n' "$((to - from))" >>"$times"
}

# median FILE: the mean of the two in the middle of an even number of times.
median() { sort -n "$1" | awk '{ t[NR] = $1 } END { printf "%d\n", (t[int((NR + 1) / 2)] + t[int(NR / 2) + 1]) / 2 }'; }

# within NUMBER BOUND: whether the number is at most the bound.
within() { awk -v number="$1" -v bound="$2" 'BEGIN { exit !(number <= bound) }'; }
