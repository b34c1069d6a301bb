#!/bin/sh
# Applies each misuse/*.edit to a copy of the repository: the compiler must refuse its crate with the
# expected error. Run it after a check, whose work the copy takes over.
root=$(cd "$(dirname "$0")/.." && pwd) || exit 2
field() { sed -n "s/^$1: //p" "$2"; }

bad=0
for edit in "$root"/misuse/*.edit; do
    name=${edit##*/} crate=$(field crate "$edit") expect=$(field expect "$edit") file=crates/$(field crate "$edit")/$(field file "$edit")
    copy=$(mktemp -d) || exit 2
    cp -r "$root/crates" "$root/crates.txt" "$copy" || exit 2
    if ! (cd "$copy/crates/$crate" && rt check 2>&1) | grep -q '^logic=proved'; then
        echo "$name: $crate is not proved without the edit"
        bad=1
    fi
    OLD=$(field old "$edit") NEW=$(field new "$edit") awk '
        { text = text $0 "\n" }
        END {
            old = ENVIRON["OLD"]; at = index(text, old)
            if (!at || index(substr(text, at + 1), old)) exit 3
            printf "%s%s%s", substr(text, 1, at - 1), ENVIRON["NEW"], substr(text, at + length(old))
        }' "$root/$file" >"$copy/$file" || { echo "$name: its old text does not stand once in $file"; exit 2; }
    if (cd "$copy/crates/$crate" && rt check 2>&1) | grep -qF "$expect"; then
        echo "$name: refused, $expect"
    else
        echo "$name: NOT REFUSED with $expect"
        bad=1
    fi
    rm -r "$copy"
done
exit $bad
