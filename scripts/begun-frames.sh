#!/bin/sh
# Shows that the check refuses programs that misuse a begun frame: one that finishes before it begins,
# one that finishes a begun frame twice, and one that forges a begun frame. Each is loopback with one
# edit, in a copy of the repository; the unedited program passes.
set -eu
cd "$(dirname "$0")/.."
copy=$(mktemp -d)
trap 'rm -rf "$copy"' EXIT
tar -c --exclude=out crates crates.txt | tar -x -C "$copy"
program="$copy/crates/loopback/src/main.rt"
cp "$program" "$copy/unedited"

# refused NAME ERROR SED...: the program edited by SED is refused, and ERROR names why.
refused() {
    name=$1
    error=$2
    edit=$3
    sed "$edit" "$copy/unedited" >"$program"
    if cmp -s "$copy/unedited" "$program"; then
        echo "begun-frames: the edit for '$name' changes nothing" >&2
        exit 1
    fi
    if (cd "$copy/crates/loopback" && rt check) >"$copy/said" 2>&1; then
        echo "begun-frames: a program that $name passes" >&2
        exit 1
    fi
    if ! grep -q "error\[$error\]" "$copy/said"; then
        echo "begun-frames: a program that $name is refused, but not by $error:" >&2
        cat "$copy/said" >&2
        exit 1
    fi
    echo "begun-frames: a program that $name is refused: $(grep -o "error\[$error\]: .*" "$copy/said" | head -1)"
}

(cd "$copy/crates/loopback" && rt check) >"$copy/said" 2>&1 || {
    echo "begun-frames: the unedited program does not pass:" >&2
    cat "$copy/said" >&2
    exit 1
}
echo "begun-frames: the unedited program passes"
refused "finishes before it begins" borrow-e0381 \
    's/let Ok(begun) = begin(header, &reference, &mut cells) else {/let begun: sending::Begun; if begin(header, \&reference, \&mut cells).is_err() {/'
refused "finishes a begun frame twice" borrow-e0382 \
    's/if finish(begun, reading, &mut cells).is_err() {/let _ = finish(begun, reading, \&mut cells); if finish(begun, reading, \&mut cells).is_err() {/'
refused "forges a begun frame" private-field \
    's/let Ok(begun) = begin(header, &reference, &mut cells) else {/let Ok(begun) = Ok::<sending::Begun, u8>(sending::Begun { header }) else {/'
