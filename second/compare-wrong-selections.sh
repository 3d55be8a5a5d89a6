#!/bin/sh
# Shows that the comparison by questions can fail by what request W5 changed: the old limit and selections read wrong on
# purpose, in each of five ways, must be found to differ; the same build without a way agrees. The old limit is found by
# a tenth of the batches too.
cd "$(dirname "$0")" || exit 2
. ./wrong.sh
seed=${1:-1}

ask "$seed" 0
compare_questions
for way in sixty-four high-bit-first any-length length-before-table past-the-count; do
    found "$way" compare_questions "$way"
done

take_tenth second-batches "$seed"
found "old limit, batches" compare_tenth second-batch sixty-four
echo "the old limit and the wrong selections were found"
