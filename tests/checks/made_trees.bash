# The trees of numbers: the answers that the cases of list_cases expect, and that
# the gate compares with those of the crate, are what the second maker makes.

# made LINE: what the second maker answers to a case.
made() {
  local fields
  IFS='|' read -r -a fields <<<"$1"
  "$tests/make_tree" "${fields[@]:1}" | if [ "${fields[0]}" = file ]; then sed -z 's/\n/␊/g'; else cat; fi
}

check_made_trees() {
  local cases=$top/crates/list_cases case wanted count=0
  command -v python3 >/dev/null || skip 'there is no python3'
  : >../expected
  [ "$("$tests/make_tree" 0)" = 167951807 ] || miss 'the first draw of 0 is another'
  while IFS= read -r case <&3 && IFS= read -r wanted <&4; do
    [[ $case == tree\|* || $case == file\|* ]] && [ "$wanted" != 'no case' ] || continue
    [ "$(made "$case")" = "$wanted" ] || miss "$case expects another answer"
    count=$((count + 1))
  done 3<"$cases/stdin" 4<"$cases/stdout"
  [ "$count" -gt 20 ] || miss "there are but $count cases of trees"
}
