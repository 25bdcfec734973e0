#!/usr/bin/env bash
# build.sh CRATE OUT: the program CRATE compiled for this machine, for timing and for long comparisons. It proves nothing.
# ../shared/tools/native-build.sh (NATIVE_BUILD names another) does it; of the C functions behind `os` it builds errno's alone,
# so a copy of it takes them all from os.c.
set -euo pipefail
here=$(cd "$(dirname "$0")" && pwd -P) root=$(cd "$(dirname "$0")/../.." && pwd -P)
tool=${NATIVE_BUILD:-$root/../shared/tools/native-build.sh}
copy=$(mktemp)
trap 'rm -f "$copy"' EXIT
sed "s|^ *printf '#include <errno.h>.*|    cp '$here/os.c' \"\$work/os.c\"|" "$tool" >"$copy"
bash "$copy" "$root" "$1" "$2"
