# Shared by compare-wrong*.sh, which read it in this folder: builds the second judge (target/release) and, once for all of
# them, the one that is wrong in the way that WRONG names (target/wrong); and the comparisons of the two.
set -eu
unset WRONG
programs="second-batch second-figures second-questions second-twin"
cargo build --release --offline --quiet
cargo build --release --offline --quiet --features wrong --target-dir target/wrong $(printf -- '--bin %s ' $programs)
right=$PWD/target/release
wrong=$PWD/target/wrong/release
work=$(mktemp -d)
trap 'rm -r "$work"' EXIT

# A name that no way has must not pass for one.
for program in $programs; do
    if WRONG=another "$wrong/$program" < /dev/null > "$work/another" 2>&1 || ! grep -q 'names no way' "$work/another"; then
        echo "$program took a name that no way has"
        exit 1
    fi
done

# found NAME WORDS..: the comparison ends with 1, as some differ and others agree.
found() {
    name=$1
    shift
    status=0
    "$@" > "$work/found" || status=$?
    echo "$name: $(tail -n 1 "$work/found")"
    if [ "$status" -ne 1 ] || ! tail -n 1 "$work/found" | grep -q '^[1-9][0-9]* agree, [1-9][0-9]* differ$'; then
        echo "'$name' was not found"
        exit 1
    fi
}

# ask SEED COUNT: makes the questions and their right answers.
ask() {
    "$right/second-generate" "$1" "$2" > "$work/questions"
    "$right/second-questions" < "$work/questions" > "$work/right"
}

# compare_questions [WAY]: the wrong build's answers to the questions, in this way if any, beside the right ones.
compare_questions() {
    env ${1:+"WRONG=$1"} "$wrong/second-questions" < "$work/questions" > "$work/wrong" || return 2
    "$right/second-compare" "$work/questions" "$work/right" "$work/wrong"
}

# take_tenth PROGRAM SEED: has the program make its files and keeps each tenth: those whose number ends in 0 (of a joined
# pair, the second number).
take_tenth() {
    "$right/$1" "$2" "$work/all"
    mkdir "$work/tenth"
    mv "$work"/all/*0.* "$work/tenth"
}

# compare_tenth PROGRAM [WAY]: what the wrong build's program writes for the files kept, beside what the right one does;
# prints the lines that differ.
compare_tenth() {
    agree=0 differ=0
    for file in "$work"/tenth/*; do
        "$right/$1" < "$file" > "$work/right-text" || return 2
        env ${2:+"WRONG=$2"} "$wrong/$1" < "$file" > "$work/wrong-text" || return 2
        if diff "$work/wrong-text" "$work/right-text" > "$work/where"; then
            agree=$((agree + 1))
        else
            differ=$((differ + 1))
            sed -n 's/^[<>] //p' "$work/where"
        fi
    done
    echo "$agree agree, $differ differ"
    [ "$differ" -eq 0 ]
}
