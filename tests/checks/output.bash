# Standard output that fails: status 3 for a run that had lists to print, with
# the store that it made. A refusal keeps its own status.

# each_bad_output CALL..: the call once for every kind of output that takes nothing.
each_bad_output() {
  output_full "$@"
  again
  output_closed "$@"
  again
  output_without_reader "$@"
}

output_full() {
  [ -c /dev/full ] || return
  poudriere bulk "$1" >/dev/full
  "$2"
}

output_closed() {
  poudriere bulk "$1" >&-
  "$2"
}

# A pipe whose only reader is gone before the run begins.
output_without_reader() {
  mkfifo ../pipe
  # shellcheck disable=SC2094
  exec 9<>../pipe 8>../pipe 9>&-
  poudriere bulk "$1" >&8
  exec 8>&-
  "$2"
}

ended_with_the_package() {
  ends 3
  staged hello 'hi\n'
  want_package x-1.0 a/x
}

ended_without_a_package() { ends 3; }

kept_its_status() { ends 2; }

check_lists_cannot_be_printed() {
  ax 'DO_STAGE=cp work/hello stage/hello'
  each_bad_output a/x ended_with_the_package
}

check_lists_of_a_failure_cannot_be_printed() {
  ax 'DO_STAGE=false'
  each_bad_output a/x ended_without_a_package
}

check_refusal_cannot_be_printed() {
  each_bad_output b/none kept_its_status
}
