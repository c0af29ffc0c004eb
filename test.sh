#!/usr/bin/env bash
# Passes all tests: rt's own gate over every crate of crates.txt, which must try every must-fail edit, then the tests that stand outside
# Rattle (tests/*/run). The last line is rt's 'N passed, M failed'; the exit status is 0 only where everything passed.
set -u
cd "$(dirname "$0")" || exit 2

for tool in rt rustc cc python3 nm flock; do
  command -v "$tool" > /dev/null || { echo "test.sh: $tool is not on the PATH" >&2; exit 2; }
done

work=$(mktemp -d) || exit 2
row=
trap '[ -z "$row" ] || kill -- "-$row" 2> /dev/null; wait; rm -rf "$work"' EXIT
log=$work/log

rt ci 2>&1 | tee "$log"
[ "${PIPESTATUS[0]}" -eq 0 ] || exit 1
verdict=$(tail -n 1 "$log")
case $verdict in
  *" passed, 0 failed") ;;
  *) exit 1 ;;
esac
# rt passes an edit that can't be applied or read; here it fails.
told=$(tail -n 2 "$log" | head -n 1)
case $told in
  'rt: ok;'*) ;;
  *) echo "test.sh: rt does not say that all is well" >&2; exit 1 ;;
esac
[[ ! $told =~ \;\ must-fail\ edits:[^\;]*[,\ ]([0-9]+)\ bad ]] || [ "${BASH_REMATCH[1]}" -eq 0 ] ||
  { echo "test.sh: must-fail edits that were not tried: ${BASH_REMATCH[1]}" >&2; exit 1; }

# The program, and the C library as an archive and as a shared object, are built before the tests that use them begin.
for words in 'judge samples/listing' 'minutes samples/minutes-class'; do
  ./nurimkkot $words > "$log" || { echo "test.sh: ./nurimkkot $words failed"; exit 1; }
done

# python3 itself, where what is found first is a script that looks for it and takes longer than it does to start.
PATH=$(dirname "$(python3 -c 'import sys; print(sys.executable)')"):$PATH

# run TEST..: runs tests one after the other, up to the first that fails.
run() {
  local check
  for check in "$@"; do
    "tests/$check/run" || { echo "test.sh: tests/$check/run failed"; return 1; }
  done
}

# Two rows of tests of like length, beside each other.
first=(command tries words write) second=()
for check in tests/*/run; do
  check=${check#tests/} check=${check%/run}
  case " ${first[*]} " in
    *" $check "*) ;;
    *) second+=("$check") ;;
  esac
done
# With set -m the first row is a group of processes, which ends as a whole where the second fails.
set -m
run "${first[@]}" > "$log" 2>&1 &
row=$!
set +m
run "${second[@]}" || exit 1
wait "$row"
status=$?
cat "$log"
[ "$status" -eq 0 ] || exit 1
echo "$verdict"
