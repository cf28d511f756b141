#!/bin/sh
# The interface for C programs, tested: the header's names and functions in C and C++, the example on logs, random calls under the
# sanitizers. Needs `scripts/build lindenscoop_c`. With REFERENCE=path of the reference program the expected CSVs are compared with it first.
set -eu
cd "$(dirname "$0")/.."
lib=target/staticlib/liblindenscoop.a
[ -f "$lib" ] || { echo "test-c: no $lib; run \`scripts/build lindenscoop_c\` first" >&2; exit 1; }
include=bindings/c/include
made=target/c
mkdir -p "$made"
warn='-Wall -Wextra -Wpedantic -Wconversion -Wsign-conversion -Wshadow -Werror'
sane='-g -O1 -fsanitize=address,undefined -fno-sanitize-recover=all'
cc=${CC:-cc} cxx=${CXX:-c++}

# Every exported function is declared, ends in _numbers where it takes a record and in _raw where it takes none, and has one of the plain name
# over it. That of the rows with a rack has the rack in its name, since by the name without it rows of another size were handed over.
exported=$(nm -g --defined-only "$lib" | sed -n 's/^.* T //p' | sort)
declared=$(sed -n 's/^LINDENSCOOP_NOT_NULL [a-z0-9_]* \(lindenscoop_[a-z0-9_]*\)(.*;$/\1/p' "$include/lindenscoop.h" | sort)
[ -n "$exported" ] && [ "$exported" = "$declared" ] || { printf 'test-c: the library exports\n%s\nand the header declares\n%s\n' "$exported" "$declared" >&2; exit 1; }
for name in $exported; do
    end=_raw
    if grep -q "^LINDENSCOOP_NOT_NULL [a-z0-9_]* $name(.*\(numbers\|lindenscoop_record record\)" "$include/lindenscoop.h"; then
        end=_numbers
    fi
    plain=${name%"$end"}
    case $plain in lindenscoop_add_rack_second) plain=lindenscoop_add_second ;; esac
    [ "$plain" != "$name" ] && grep -q "^static inline .* $plain(" "$include/lindenscoop.h" \
        || { echo "test-c: $name does not end in $end, or there is no function of the name without it" >&2; exit 1; }
done

# The oldest and the named standards of both languages.
for name in fields kinds rmc runs; do
    source=bindings/c/tests/$name.c
    $cc -std=c99 $warn -fsyntax-only -I$include $source
    $cxx -std=c++11 -x c++ $warn -Wold-style-cast -fsyntax-only -I$include $source
    $cc -std=c11 $sane $warn -I$include $source "$lib" -o "$made/${name}_c"
    $cxx -std=c++17 $sane $warn -Wold-style-cast -I$include -x c++ $source -x none "$lib" -o "$made/${name}_cpp"
    "$made/${name}_c"
    "$made/${name}_cpp"
done

# Whether a field is there, and whether two digits are a year, must be looked at.
for call in 'lindenscoop_get_offset(&r, &minutes)' 'lindenscoop_full_year(r.yy, &year)' 'lindenscoop_second_date(&s, &year, &year, &year)'; do
    printf '#include "lindenscoop.h"\nint main(void) { lindenscoop_record r = {0}; lindenscoop_second s = {0}; int32_t minutes = 0; uint32_t year = 0; (void)r, (void)s; %s; return minutes || year; }\n' "$call" >"$made/unlooked.c"
    if $cc -std=c11 -Werror -I$include -c "$made/unlooked.c" -o "$made/unlooked.o" 2>"$made/unlooked.log" || ! grep -q 'unused' "$made/unlooked.log"; then
        echo "test-c: an answer of $call that is not looked at is not warned of" >&2
        exit 1
    fi
done

# Whether the header declares a name, and whether a program that calls it can be linked.
is_declared() {
    printf '#include "lindenscoop.h"\nint main(void) { (void)%s; return 0; }\n' "$1" >"$made/declared.c"
    LC_ALL=C $cc -std=c11 -fsyntax-only -I$include "$made/declared.c" 2>"$made/declared.log"
}
is_linked() {
    printf 'int %s(void);\nint main(void) { return %s(); }\n' "$1" "$1" >"$made/linked.c"
    LC_ALL=C $cc -std=c11 "$made/linked.c" "$lib" -o "$made/linked" 2>"$made/linked.log"
}

# Code from before there were kinds, which took a record's numbers by calls of these names, neither compiles nor links, nor does code that
# counted days from 2000 or lent rows without a rack; by the new names it does both.
for pair in read_raw:read_numbers write_raw:write_numbers search_raw:search_numbers feed_raw:feed_numbers feed_all_raw:feed_all_numbers \
    day_number_raw:days_since_1980_raw add_second_numbers:add_rack_second_numbers; do
    old=lindenscoop_${pair%:*} new=lindenscoop_${pair#*:}
    is_declared "$new" && is_linked "$new" || { echo "test-c: there is no $new" >&2; exit 1; }
    if is_declared "$old" || ! grep -q "$old.*undeclared\|undeclared.*$old" "$made/declared.log" \
        || is_linked "$old" || ! grep -q "undefined.*$old" "$made/linked.log"; then
        echo "test-c: code that calls $old, which meant another thing than $new, still compiles or links" >&2
        exit 1
    fi
done
if is_declared lindenscoop_day_number || ! grep -q 'undeclared' "$made/declared.log"; then
    echo 'test-c: code that counts days from 2000 by lindenscoop_day_number still compiles' >&2
    exit 1
fi

# Code that adds a record without its rack, or takes a row for a run, does not compile; with the rack it does.
compiles() {
    printf '#include "lindenscoop.h"\nint main(void) { lindenscoop_record r = {0}; lindenscoop_runs runs = {0}; (void)r, (void)runs; %s; return 0; }\n' "$1" >"$made/racks.c"
    LC_ALL=C $cc -std=c11 -Werror -fsyntax-only -I$include "$made/racks.c" 2>"$made/racks.log"
}
for pair in 'lindenscoop_add_second(&runs, &r):lindenscoop_add_second(&runs, 0, &r)' 'runs.rows[0].count = 1:runs.rows[0].run.count = 1' \
    'lindenscoop_run *row = runs.rows:lindenscoop_row *row = runs.rows'; do
    compiles "${pair#*:}" || { echo "test-c: this does not compile: ${pair#*:}" >&2; exit 1; }
    if compiles "${pair%:*}" || ! grep -q "too few arguments\|no member named 'count'\|incompatible pointer type" "$made/racks.log"; then
        echo "test-c: code from before there were racks still compiles: ${pair%:*}" >&2
        exit 1
    fi
done

# Code that takes a number for the one unit that it once had, or two digits for a year from 2000 on, does not compile; by the new names it does.
for pair in fraction_value:fraction_units latitude:latitude_units longitude:longitude_units altitude:altitude_metres year:yy; do
    old=${pair%:*} new=${pair#*:}
    for name in "$old" "$new"; do
        printf '#include "lindenscoop.h"\nint main(void) { lindenscoop_record r = {0}; return r.%s != 0; }\n' "$name" >"$made/$name.c"
    done
    $cc -std=c11 -fsyntax-only -I$include "$made/$new.c"
    if LC_ALL=C $cc -std=c11 -fsyntax-only -I$include "$made/$old.c" 2>"$made/$old.log" || ! grep -q "no member named '$old'" "$made/$old.log"; then
        echo "test-c: code that takes $old for what it once meant still compiles" >&2
        exit 1
    fi
done

$cc -O2 -std=c99 $warn -I$include bindings/c/examples/heard_csv.c "$lib" -o "$made/heard_csv"
for form in 1 2 3 4 5 6 7 10 12; do
    log=tests/csv/form-$form
    if [ -n "${REFERENCE:-}" ]; then
        scripts/expect-csv.sh "$REFERENCE" $form "$log.log" | cmp - "$log.csv"
    fi
    "$made/heard_csv" $form "$log.log" | cmp - "$log.csv"
    "$made/heard_csv" $form < "$log.log" | cmp - "$log.csv"
done
for form in 0 8 9 11 15 05 010 012 100 sat rmc ''; do
    if "$made/heard_csv" "$form" samples/standard.log >"$made/other.csv" 2>"$made/other.log" \
        || ! grep -q 'refused with 1:' "$made/other.log" || [ -s "$made/other.csv" ]; then
        echo "test-c: heard_csv takes \"$form\" for a form" >&2
        exit 1
    fi
done
if [ -w /dev/full ] && "$made/heard_csv" 1 samples/standard.log >/dev/full 2>"$made/full.log"; then
    echo 'test-c: heard_csv calls a full disk a success' >&2
    exit 1
fi

$cc -std=c11 $sane $warn -I$include bindings/c/tests/random_calls.c "$lib" -o "$made/random_calls"
for seed in 1 2 3; do
    "$made/random_calls" $seed ${CALLS:-200000}
done
echo 'test-c: ok'
