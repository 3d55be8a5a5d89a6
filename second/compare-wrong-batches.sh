#!/bin/sh
# Shows that the comparisons by batches can fail: a reader of batches wrong on purpose (it asks for the mark of a header that
# is too short) must be found to differ, by whole files and by questions; the same build without a way agrees.
cd "$(dirname "$0")" || exit 2
. ./wrong.sh
seed=${1:-1}
way=mark-of-short-header

../.ci/compare-batches "$seed" "$wrong/second-batch"
found "$way, batches" ../.ci/compare-batches "$seed" env WRONG="$way" "$wrong/second-batch"

ask "$seed" 0
compare_questions
found "$way" compare_questions "$way"
echo "the wrong reader was found, by files and by questions"
