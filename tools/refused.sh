#!/usr/bin/env bash
# Tries code that must not compile. Each crates/NAME/refused/*.edit changes one line of that crate, in a copy of
# the repository, and the compiler must refuse the crate with the error that the edit names. An edit has four lines:
#   file: the file, from crates/NAME/ on
#   old: text that stands there once
#   new: the text in its place
#   error: the name of the compiler's error
# `rt try` stops at the error, before any proof. That the crate as it stands has none, `rt ci` shows.
set -u
root=$(cd "$(dirname "$0")/.." && pwd)
work=$(mktemp -d)
trap 'rm -rf "$work"' EXIT
tar -C "$root" --exclude=out -cf - crates crates.txt | tar -C "$work" -xf -

field() { sed -n "s/^$1: //p" "$2"; }

# Prints file $1 with the text $2, which must stand there once, replaced by $3.
replaced() {
    OLD=$2 NEW=$3 awk '
        { text = text $0 "\n" }
        END {
            old = ENVIRON["OLD"]; at = index(text, old)
            if (old == "" || !at || index(substr(text, at + length(old)), old)) exit 3
            printf "%s%s%s", substr(text, 1, at - 1), ENVIRON["NEW"], substr(text, at + length(old))
        }' "$1"
}

tried=0
failed=0
for edit in "$root"/crates/*/refused/*.edit; do
    crate=$(basename "$(dirname "$(dirname "$edit")")")
    label=$crate/$(basename "$edit" .edit)
    file=$crate/$(field file "$edit")
    error=$(field error "$edit")
    tried=$((tried + 1))
    if ! replaced "$root/crates/$file" "$(field old "$edit")" "$(field new "$edit")" >"$work/crates/$file"; then
        echo "refused $label: BAD EDIT: its old text does not stand once in $file"
        failed=$((failed + 1))
    else
        said=$(cd "$work/crates/$crate" && rt try 2>&1 </dev/null)
        if [ $? -eq 1 ] && grep -qF "error[$error]" <<<"$said"; then
            echo "refused $label: the compiler refuses it, with error[$error]"
        else
            echo "refused $label: NOT REFUSED as it must be:"
            head -n 5 <<<"$said"
            failed=$((failed + 1))
        fi
    fi
    cp "$root/crates/$file" "$work/crates/$file"
done
echo "refused: $tried tried, $failed not refused"
[ "$tried" -gt 0 ] && [ "$failed" -eq 0 ]
