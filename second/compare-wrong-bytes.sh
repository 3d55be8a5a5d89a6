#!/bin/sh
# Shows that the comparisons can fail by the byte that a refusal names: bytes wrong on purpose, in each of five ways, must be
# found by questions and by batches; the same build without a way agrees. One way is found by .ci/compare-batches itself, and
# each by a tenth of its files, as what differs there differs among them all.
cd "$(dirname "$0")" || exit 2
. ./wrong.sh
seed=${1:-1}

# found_bytes NAME WORDS..: found, and what differs is the byte of a refusal.
found_bytes() {
    found "$@"
    if ! grep -q '^refused [0-9]* at [0-9]* byte [0-9]*$' "$work/found"; then
        echo "'$1' was not found by a byte"
        exit 1
    fi
}

whole=first-of-field
found_bytes "$whole, all batches" ../.ci/compare-batches "$seed" env WRONG="$whole" "$wrong/second-batch"

ask "$seed" 0
take_tenth second-batches "$seed"
compare_questions
compare_tenth second-batch
for way in first-of-field thread-as-location byte-of-length byte-of-table second-of-mark; do
    found_bytes "$way" compare_questions "$way"
    found_bytes "$way, batches" compare_tenth second-batch "$way"
done
echo "the wrong bytes were found, by questions and by batches"
