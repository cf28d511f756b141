#!/bin/sh
# The CSV that the programs heard_csv must print, made by the reference program:  expect-csv.sh REFERENCE FORM LOG
set -eu
reference=$1 form=$2 log=$3
root=$(CDPATH='' cd -- "$(dirname -- "$0")/.." && pwd)
tr -d '"' < "$root/bindings/heard_csv.columns"
for word in $(printf 'listen %s %s\n' "$form" "$(xxd -p "$log" | tr -d '\n')" | "$reference"); do
    case $word in
    *:*) printf %s "${word#*:}" | xxd -r -p | awk -F= -f "$root/tests/csv/block_to_csv.awk" ;;
    esac
done
