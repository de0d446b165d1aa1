#!/usr/bin/env bash
# Random journals, damaged lines and sizes around the limit among them, through the proved journal program and through the
# independent implementation; each 300 journals must often enough meet the ticks where a life begins or ends, compare
# capabilities that are nearly alike, and ask for a permission in a context that decides. `make journal` or the gate puts the program
# there. The last line is 'N passed, M failed'.
set -u
cd "$(dirname "$0")/.." || exit 1
cargo build --release --offline --quiet --manifest-path compare/Cargo.toml --bin journals || exit 1
compare/target/release/journals target/bin/journal "${1:-300}"
