#!/usr/bin/env bash
# Refuses each request for memory of some tests in turn, one in each run: the test has to pass all the
# same within 10 seconds, since what is refused is asked for once more. With two workers the order of
# requests is not fixed, and each number is tried once. As many run at once as there are processors, or
# as JOBS says. `make test` runs it after `rt ci`, which leaves the crates' test programs; one that is
# not there is built by `rt test`. It wants coreutils, xargs and a C compiler, `cc`, and its last line
# is 'N passed, N failed'. Usage: dev/refuse_tests.sh [CRATE..]
set -u
LC_ALL=C
top=$(cd "$(dirname "$0")/.." && pwd)
tests='tests_ends queues::copies_are_in_the_same_state
tests_parts chains::a_refused_copy_leaves_its_source
tests_parts links::copies_are_in_the_same_state
tests_nets nets::two_flows::every_event_is_run_also_where_memory_was_refused
tests_nets nets::by_nodes::nodes_run_their_events_as_the_net_does
tests_nets nets::by_nodes::receivers_hold_segments_and_codel_drops_as_in_the_net
tests_nets nets::copies::a_refused_copy_leaves_the_net
tests_nets nets::late::a_fault_behind_the_millionth_event_is_told
tests_nets windows::refused::a_refused_window_gives_the_net_back
tests_nets windows::refused::a_refused_turn_leaves_the_window
tests_nets windows::refused::a_refused_group_stands_after_whole_events
tests_nets boards::refused::a_refused_board_gives_its_pieces_up
tests_engine refused::a_refused_window_fails_the_engine
tests_engine refused::a_refused_text_commits_nothing_of_its_window
tests_engine refused::a_refused_move_changes_nothing'

if ! command -v cc > /dev/null; then
  echo 'LEFT OUT, not passed: memory refused to tests (no cc)'
  exit 0
fi
work=$(mktemp -d) || exit 2
trap 'rm -rf "$work"' EXIT

cc -O1 -shared -fPIC "$top/dev/refuse.c" -o "$work/refuse.so" -ldl || exit 2

# The test passes with each of these requests refused, and with none where it is 0; else it says why.
passes() {
  local number said status
  for number in "$@"; do
    said=$(timeout -k 1 10 env REFUSE="$number" REQUESTS="$work/requests.$number" LD_PRELOAD="$work/refuse.so" \
      "$program" "$test" 2>&1 < /dev/null)
    status=$?
    [[ $status = 0 && $said = *"test result: ok"* ]] || echo "request $number: status $status: $said"
  done
}
export -f passes
export LC_ALL work program test

passed=0
failed=0
while read -r crate test; do
  [[ $# = 0 || " $* " = *" $crate "* ]] || continue
  program=$top/crates/$crate/out/${crate}_tests
  [ -x "$program" ] || (cd "$top/crates/$crate" && rt test < /dev/null) || exit 2
  why=$(passes 0)
  requests=$(cat "$work/requests.0")
  [ "${requests:-0}" -gt 0 ] || why="no request was counted: $why"
  [ -n "$why" ] || why=$(seq "$requests" | xargs -n 20 -P "${JOBS:-$(nproc)}" bash -c 'passes "$@"' passes ||
    echo 'not every request was tried')
  rm -f "$work"/requests.*
  if [ -z "$why" ]; then
    passed=$((passed + 1))
    echo "$crate: $test passes with each of $requests requests refused"
  else
    failed=$((failed + 1))
    printf 'FAILED: %s: %s\n%s\n' "$crate" "$test" "$(head -n 20 <<< "$why")"
  fi
done <<< "$tests"
echo "$passed passed, $failed failed"
[ "$failed" = 0 ]
