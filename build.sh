#!/bin/sh
# Proves lotd and the crates that it stands on, tells how far it is, and builds lotd as crates/lotd/out/lotd. The first
# run proves everything; a later one what changed and what stands above it. RT_JOBS gives the number of crates that are
# proved side by side; without it there are four. Rattle's own compiler builds lotd. `sh build.sh llvm` has LLVM build it,
# as for a package: that takes some three minutes more, and the program is 5 to 17 % faster. `sh build.sh made` does nothing:
# its status is 0 where this very tree is proved and built.
set -eu
cd "$(dirname "$0")"
page=$(rt doc)
exec python3 build.py "$(dirname "$page")" "$@"
