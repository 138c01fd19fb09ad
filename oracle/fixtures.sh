#!/bin/sh
# Makes the fixed lists and their answers again: fixtures.sh SRC_DIR
# Each list is its hand-written head and one random list. The seeds are those of 1 to 119 whose
# lists reach the rules most evenly.
set -eu
here=$(cd "$(dirname "$0")" && pwd)
"$here/build.sh" "${1:?usage: fixtures.sh SRC_DIR}"
oracle=$here/target/oracle
cd "$here/fixtures"
{ cat stage1.head; "$oracle" generate 28 2700 --stage1; } > stage1.in
{ cat all.head; "$oracle" generate 101 3200; } > all.in
for name in stage1 all floats; do
    "$oracle" run --check < $name.in > $name.out
done
