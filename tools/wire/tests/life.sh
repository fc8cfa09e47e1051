#!/usr/bin/env bash
# Compiles life.c without a warning, links it with the proved code and compares what it prints with life.txt. The archive
# is that of `tools/archives wire`, or stands in the folder STATICLIB_DIR. The last line is '1 passed, 0 failed'.
set -u
here=$(cd "$(dirname "${BASH_SOURCE[0]}")" && pwd)
archive=${STATICLIB_DIR:-$here/../../../target/staticlib}/libwire.a
folder=$(mktemp -d)
trap 'rm -rf "$folder"' EXIT

compiled() {
    "${CC:-cc}" -std=c11 -Wall -Wextra -Wpedantic -Werror "$here/life.c" "$archive" -o "$folder/life"
}

if compiled && "$folder/life" >"$folder/life.txt" && diff "$here/life.txt" "$folder/life.txt"; then
    echo "1 passed, 0 failed"
else
    echo "0 passed, 1 failed"
    exit 1
fi
