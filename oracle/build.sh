#!/bin/sh
# Builds the original as a program that plays scripts.
# build.sh SOURCES BUILD
#   SOURCES  a checkout of flute, or a folder with the files of sources.txt
#   BUILD    a folder outside the repository; the program is BUILD/oracle
# Of flute exactly the files of sources.txt are compiled, as they are; standins/ has the rest.
set -eu
here=$(cd "$(dirname "$0")" && pwd)
sources=$(cd "$1" && pwd)
mkdir -p "$2"
build=$(cd "$2" && pwd)

(cd "$sources" && sha256sum --check --quiet "$here/sources.txt") ||
    echo "build.sh: not the files that the figures were made with" >&2

tree=$build/tree
rm -rf "$tree"
mkdir "$tree"
cp -R "$here/standins/flute" "$tree/src"
while read -r _ file; do
    cp "$sources/$file" "$tree/$file"
done <"$here/sources.txt"

# compile NAME KIND FILE..: each crate may use those before it.
# flute's own assertions and the overflow checks stay on.
before=
compile() {
    crate=$1 kind=$2
    shift 2
    rustc --edition 2021 -C opt-level=2 -C debug-assertions=on -C overflow-checks=on \
        --out-dir "$build" -L "$build" $before --crate-name "$crate" --crate-type "$kind" "$@"
    before="$before --extern $crate"
}
crates=$here/standins/crates
for name in serde_derive typed_builder; do
    compile $name proc-macro "$crates/$name.rs"
done
for name in serde quick_xml log num_integer rand url base64 md5 serde_json; do
    compile $name rlib "$crates/$name.rs"
done
compile flute rlib "$tree/src/lib.rs" --cap-lints allow
compile oracle bin "$here/driver/main.rs"
