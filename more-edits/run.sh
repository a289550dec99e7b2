#!/bin/sh
# Tries the wrong edits of this folder, which the gate leaves out for its time: each must be refused, as those of crates/NAME/must-fail.
#     more-edits/run.sh [NAME..]      all crates that have a folder here, or those named
set -eu
here=$(cd "$(dirname "$0")" && pwd)
names=${*:-$(cd "$here" && ls -d */ | tr -d /)}
work=$(mktemp -d)
trap 'rm -rf "$work"' EXIT
cp -r "$here/.." "$work/copy"
cd "$work/copy"
rm -rf crates/*/must-fail
for name in $names; do
    cp -r "more-edits/$name" "crates/$name/must-fail"
done
rt must-fail $names
