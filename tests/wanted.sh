#!/bin/sh
# Looks what the static library wants of whoever links it. include/perchmellow.h, docs/FIRMWARE.md and docs/TRUST.md say memcpy and memset and
# nothing else, and firmware may have just these two.
set -eu
cd "$(dirname "$0")/.."
library=target/staticlib/libperchmellow.a
wanted=$(nm -u "$library" | sed -n 's/^ *U //p' | sort -u | tr '\n' ' ')
if [ "$wanted" != "memcpy memset " ]; then
    echo "wanted.sh: $library wants '$wanted', and the header says memcpy and memset alone" >&2
    exit 1
fi
echo "it wants memcpy and memset alone"
