#!/usr/bin/env bash
# "`record` then `plan` on the text of 01's listing prints 01's listing": ./run proves and builds both where they are not.
set -euo pipefail
cd "$(dirname "$0")/../.."
./run record tests/listing/listing.txt | ./run plan | diff - tests/listing/printed.txt
