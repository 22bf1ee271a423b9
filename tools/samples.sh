#!/usr/bin/env bash
# Runs the program on every sample file, and on the largest file and one byte more, and compares what it prints.
# What is printed of samples/NAME.words stands in samples/NAME.page. Run it after `rt ci`, which builds the program.
set -u
root=$(cd "$(dirname "$0")/.." && pwd)
align=$root/crates/align/out/align
tried=0
failed=0

# Compares what the program prints of standard input with $2; $1 is the case's name.
prints() {
    tried=$((tried + 1))
    if [ "$("$align")" != "$2" ]; then
        echo "sample $1: it must print: $2"
        failed=$((failed + 1))
    fi
}

for words in "$root"/samples/*.words; do
    prints "$(basename "$words" .words)" "$(cat "${words%.words}.page")" <"$words"
done
prints "65536 bytes" "REFUSED 11 WORD 0" < <(head -c 65536 /dev/zero)
prints "65537 bytes" "REFUSED 61 WORD 0" < <(head -c 65537 /dev/zero)
prints "no bytes" "REFUSED 16 WORD 0" </dev/null
echo "samples: $tried tried, $failed printed something else"
[ "$failed" -eq 0 ]
