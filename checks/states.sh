#!/bin/sh
# The order of a report's states is kept by types, so an edit that leaves it is turned down before
# the prover is asked, and a must-fail edit has to reach the prover. This script tries such edits:
# each is applied to a copy of the crates that report_uses rests on, and the checker must refuse the
# copy in the words that the edit says. It begins with what `rt check` has proved of them, if any.
set -eu
repo=$(cd "$(dirname "$0")/.." && pwd)
copy=$(mktemp -d)
trap 'rm -rf "$copy"' EXIT
mkdir "$copy/crates"
for crate in report_uses $(sed -n 's/^report_uses: //p' "$repo/crates.txt"); do
    cp -r "$repo/crates/$crate" "$copy/crates"
    grep "^$crate:" "$repo/crates.txt" >> "$copy/crates.txt"
done

# Whether the copy compiles as it is: only then does a refusal say something of the edit.
if ! (cd "$copy/crates/report_uses" && rt check) > "$copy/said" 2>&1; then
    echo "the crate as it stands is refused:"
    head -5 "$copy/said"
    exit 1
fi

failed=0
passed=0
for edit in "$repo"/checks/states/*.edit; do
    name=$(basename "$edit" .edit)
    file=$(sed -n 's/^file: //p' "$edit")
    says=$(sed -n 's/^says: //p' "$edit")
    old=$(sed -n 's/^old: //p' "$edit") new=$(sed -n 's/^new: //p' "$edit") \
        awk '{
            at = index($0, ENVIRON["old"])
            if (at) {
                $0 = substr($0, 1, at - 1) ENVIRON["new"] substr($0, at + length(ENVIRON["old"]))
                found++
            }
            print
        }
        END { exit found != 1 }' "$repo/$file" > "$copy/$file" || {
        echo "$name: its old text does not stand once in $file"
        failed=$((failed + 1))
        continue
    }
    if (cd "$copy/crates/report_uses" && rt check) > "$copy/said" 2>&1; then
        echo "$name: NOT refused"
        failed=$((failed + 1))
    elif grep -qF "$says" "$copy/said"; then
        echo "$name: refused, $says"
        passed=$((passed + 1))
    else
        echo "$name: refused in other words:"
        grep -m3 error "$copy/said" || head -3 "$copy/said"
        failed=$((failed + 1))
    fi
    cp "$repo/$file" "$copy/$file"
done
echo "$passed refused as they must be, $failed not"
test "$failed" -eq 0
