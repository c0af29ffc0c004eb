#!/usr/bin/env bash
# Times the proved judge, for one answer and for a class, its search, list check, readers, writers and minutes from a log beside those in Rust.
# LIBDIR: folder of libc_api.a.
set -euo pipefail
here=$(cd "$(dirname "${BASH_SOURCE[0]}")" && pwd)
"$here/tests/compare/build" bench
"$here/target/compare/bench"
