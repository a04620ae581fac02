#!/usr/bin/env bash
# xargs.sh FILE: by xargs, with a process for each of the parts into which split cuts the file at newlines.
set -eu
export FILE=$1 PROGRAM=${REGROUP_LINES:-regroup-lines} PARTS=${PARTS:-$(nproc)} FOLDER
FOLDER=$(mktemp -d)
trap 'rm -rf "$FOLDER"' EXIT
seq "$PARTS" | xargs -P "$PARTS" -I{} \
    bash -c 'set -o pipefail; split -n l/{}/"$PARTS" "$FILE" | "$PROGRAM" en de > "$FOLDER/{}"'
for part in $(seq "$PARTS"); do
    cat "$FOLDER/$part"
done
