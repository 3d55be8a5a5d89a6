#!/bin/sh
# Shows that the comparison by questions can fail: a judge wrong on purpose (happens-before ten steps deep; A5 at updates in
# conflict) must be found to differ; the same build without a way agrees.
cd "$(dirname "$0")" || exit 2
. ./wrong.sh

ask "${1:-1}" "${2:-2000}"
compare_questions
for way in ten-steps updates-in-conflict; do
    found "$way" compare_questions "$way"
done
echo "the wrong judges were found"
