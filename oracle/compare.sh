#!/bin/sh
# Compares a program that reads the common format with the published shard:
#   compare.sh PROGRAM SRC_DIR COUNT [stage1|all] [FIRST_SEED]
# PROGRAM is a command that reads a list on standard input, SRC_DIR the folder with shard.rs,
# COUNT the number of random calls. stage1 keeps to new, insert, get, peek, remove and counts.
# Ends with status 1 and the shortest list found where an answer differs.
set -eu
usage="usage: compare.sh PROGRAM SRC_DIR COUNT [stage1|all] [FIRST_SEED]"
here=$(cd "$(dirname "$0")" && pwd)
program=${1:?$usage}
src=${2:?$usage}
count=${3:?$usage}
stage=${4:-all}
seed=${5:-1}
each=200000
depth=${ORACLE_DEPTH:-4}
case $stage in
    stage1) flag=--stage1; fixed=stage1; worlds=5 ;;
    all) flag=; fixed="stage1 all"; worlds=3 ;;
    *) echo "$usage" >&2; exit 2 ;;
esac
"$here/build.sh" "$src"
oracle=$here/target/oracle
work=$(mktemp -d)
trap 'rm -rf "$work"' EXIT
calls=0

# Runs the list $work/in on both; $1 says what it is.
list() {
    "$oracle" run < "$work/in" > "$work/ours" || {
        echo "compare: $1 left the domain of comparison" >&2; exit 1; }
    sh -c "$program" < "$work/in" > "$work/theirs" || echo "compare: the program ended with $? on $1" >&2
    if ! cmp -s "$work/ours" "$work/theirs"; then
        echo "$1: the answers differ"
        cmp "$work/ours" "$work/theirs" || true
        python3 "$here/shrink.py" "$work/in" "'$oracle' run" "$program"
        exit 1
    fi
    calls=$((calls + $(wc -l < "$work/ours")))
}

for name in $fixed; do
    cp "$here/fixtures/$name.in" "$work/in"
    list "the fixed list $name"
    cmp "$work/ours" "$here/fixtures/$name.out"
done
made=0
while [ "$made" -lt "$count" ]; do
    left=$((count - made))
    [ "$left" -lt "$each" ] || left=$each
    "$oracle" generate "$seed" "$left" $flag > "$work/in"
    list "random list, seed $seed"
    made=$((made + left))
    seed=$((seed + 1))
done
"$oracle" settings "$seed" $((count / 10 + 1)) $flag > "$work/in"
list "list of settings, seed $seed"
world=0
while [ "$world" -le "$worlds" ]; do
    "$oracle" exhaust "$world" "$depth" $flag > "$work/in"
    list "every list of $depth calls, small world $world"
    world=$((world + 1))
done
echo "compare: $calls answers, no difference ($stage)"
