#!/bin/sh
# Shows that the comparison of figures can fail: figures wrong on purpose, in each of four ways, must be found to differ; the
# same build without a way agrees. One way is found by .ci/compare-figures itself, and each by a tenth of its files, as what
# differs there differs among them all.
cd "$(dirname "$0")" || exit 2
. ./wrong.sh
seed=${1:-1}

../.ci/compare-figures "$seed" "$wrong/second-figures"
whole=one-finding
found "$whole, all files" ../.ci/compare-figures "$seed" env WRONG="$whole" "$wrong/second-figures"
# A program that fails would be found too, and show nothing.
if grep -q 'the program failed' "$work/found"; then
    echo "figures wrong by '$whole' were not made"
    exit 1
fi

take_tenth second-figures-files "$seed"
compare_tenth second-figures
for way in largest-of-refused one-finding ending-counted wrong-verdict; do
    found "$way" compare_tenth second-figures "$way"
done
echo "the wrong figures were found"
