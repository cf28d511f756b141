#!/bin/sh
# The Rust crate: its tests with the examples of its documentation, its example program on the logs whose CSV is known, and what is said
# where the library is missing. Needs `scripts/build lindenscoop_c`.
set -eu
cd "$(dirname "$0")/.."
cargo test --quiet --offline -p lindenscoop
printed=$(mktemp)
empty=$(mktemp -d)
trap 'rm -rf "$printed" "$empty"' EXIT
logs=0
for pair in 1:standard 2:capture 3:erlangen 4:spa 5:racal 6:sysplex 7:computime 10:sat 12:rmc; do
    logs=$((logs + 1))
    form=${pair%:*} name=${pair#*:}
    log=tests/csv/form-$form
    cargo run --release --quiet --offline -p lindenscoop --example heard_csv -- "$form" "$log.log" >"$printed"
    cmp "$printed" "$log.csv"
    cargo run --release --quiet --offline -p lindenscoop --example heard_csv -- "$name" "$log.log" >"$printed"
    cmp "$printed" "$log.csv"
done
echo "rust: heard_csv agrees on $logs logs"

# Runs a command that must fail and say this.
fails_with() {
    said=$1
    shift
    if "$@" >"$printed" 2>&1; then
        echo "test-rust: no failure of: $*" >&2
        exit 1
    fi
    grep -qF "$said" "$printed" || { echo "test-rust: \"$said\" is not said by: $*" >&2; cat "$printed" >&2; exit 1; }
}
example="cargo run --release --quiet --offline -p lindenscoop --example heard_csv --"
for name in frame block c37118; do
    fails_with 'refused with 1' $example $name samples/standard.log
done
fails_with 'there is no form "radio"; the forms are standard (1), ' $example radio samples/standard.log
fails_with 'sat (10), c37118 (11), rmc (12)' $example 15 samples/standard.log
fails_with "Make it with:  cd $(pwd -P) && scripts/build lindenscoop_c" \
    env LINDENSCOOP_LIB_DIR="$empty" CARGO_TARGET_DIR="$empty" cargo build --quiet --offline -p lindenscoop
echo "rust: errors say what to do"
