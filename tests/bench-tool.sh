#!/bin/sh
# Runs the commands of docs/BENCH-TOOL.md in an empty folder, and compares what they print with what the page says.
# usage: tests/bench-tool.sh [FOLDER-OF-PERCHMELLOW]
set -u
root=$(cd "$(dirname "$0")/.." && pwd) || exit 2
tool=${1:-$root/rust/target/release}
[ -x "$tool/perchmellow" ] || { echo "bench-tool.sh: there is no perchmellow in $tool; run 'make tool' first." >&2; exit 2; }
PATH=$(cd "$tool" && pwd):$PATH

work=$(mktemp -d) || exit 2
trap 'rm -rf "$work"' EXIT
mkdir "$work/folder"
awk '/^```/ { inside = ($0 == "```console"); next } inside' "$root/docs/BENCH-TOOL.md" >"$work/page"
grep '^\$ ' "$work/page" | cut -c3- >"$work/commands"
[ -s "$work/commands" ] || { echo "bench-tool.sh: the page has no commands." >&2; exit 2; }

# One shell for all of them, so that a command may ask for the status of the one before.
cd "$work/folder" || exit 2
status=0
while IFS= read -r command <&3; do
    printf '$ %s\n' "$command"
    (exit $status)
    eval "$command" 2>&1 </dev/null
    status=$?
done 3<"$work/commands" >"$work/ran"

if diff "$work/page" "$work/ran"; then
    echo "bench-tool.sh: $(wc -l <"$work/commands") commands printed what the page says"
else
    echo "bench-tool.sh: lines with < are the page's, lines with > were printed" >&2
    exit 1
fi
