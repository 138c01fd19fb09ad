#!/bin/sh
# Builds the driver over the published sources in a folder: build.sh SRC_DIR [OUT_DIR]
# No network and no registry: hashbrown is the one in the toolchain's own library folder.
set -eu
here=$(cd "$(dirname "$0")" && pwd)
src=$(cd "${1:?usage: build.sh SRC_DIR [OUT_DIR]}" && pwd)
out=${2:-$here/target}
mkdir -p "$out"
for file in shard.rs linked_slab.rs options.rs unsync.rs; do
    test -f "$src/$file" || { echo "build.sh: no $file in $src" >&2; exit 1; }
done
# --cfg fuzzing only adds the sources' own validate(); overflow and debug assertions stay on.
QUICK_CACHE_SRC=$src RUSTC_BOOTSTRAP=1 rustc --edition 2021 -C opt-level=3 \
    -C debug-assertions=yes -C overflow-checks=yes --cfg fuzzing \
    -o "$out/oracle" "$here/src/main.rs"
