#!/bin/sh
# Makes the shared library of the static one:  python/make-shared.sh [FOLDER]
# FOLDER gets liblindenscoop.so.0.1.0 and the links liblindenscoop.so.0.1 and liblindenscoop.so to it; it is target/sharedlib where none is named.
# Needs `scripts/build lindenscoop_c`. Prints the path with the number that programs are linked to.
set -eu
root=$(CDPATH='' cd -- "$(dirname -- "$0")/.." && pwd)
static=$root/target/staticlib/liblindenscoop.a
folder=${1:-$root/target/sharedlib}
version=$("$root/scripts/version")
name=liblindenscoop.so
linked=$name.${version%.*}
[ -f "$static" ] || { echo "make-shared: no $static; run \`scripts/build lindenscoop_c\` in $root first" >&2; exit 1; }
mkdir -p "$folder"
# All of the archive, whose code is position independent. A name that is left undefined is an error here, not at the first call.
${CC:-cc} -shared -o "$folder/$name.$version" -Wl,-soname,"$linked" -Wl,--version-script="$root/bindings/c/exported.map" \
    -Wl,-z,defs -Wl,-z,now -Wl,-z,noexecstack -Wl,--whole-archive "$static" -Wl,--no-whole-archive
ln -sf "$name.$version" "$folder/$linked"
ln -sf "$linked" "$folder/$name"
echo "$folder/$linked"
