#!/bin/sh
# Shows that the comparison of the twin can fail: a twin wrong on purpose, in each of five ways, must be found to differ; the
# same build without a way agrees. One way is found by .ci/compare-twin itself, and each by a tenth of its files, as what
# differs there differs among them all.
cd "$(dirname "$0")" || exit 2
. ./wrong.sh
seed=${1:-1}

# found_twin NAME WORDS..: found, and by what the twin wrote: one that fails would be found too, and show nothing.
found_twin() {
    found "$@"
    if grep -q 'the program failed' "$work/found"; then
        echo "a twin wrong by '$1' was not made"
        exit 1
    fi
}

../.ci/compare-twin "$seed" "$wrong/second-twin"
whole=any-cycle
found_twin "$whole, all files" ../.ci/compare-twin "$seed" env WRONG="$whole" "$wrong/second-twin"

take_tenth second-twin-files "$seed"
for way in sw-any-source stops-at-thread-start any-cycle too-large-at-384 tests-first; do
    found_twin "$way" "$right/second-twin-compare" "$work/tenth" env WRONG="$way" "$wrong/second-twin"
done
echo "the wrong twins were found"
