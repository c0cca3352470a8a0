# What both commands build with: the machine level that rt builds for, and the Rattle library.
CC=${CC:-gcc}
FLAGS="-std=c11 -O3 -march=x86-64-v2 -Wall -Wextra"
LIBRARY=../crates/weddrul_c/out/libweddrul_c.a
mkdir -p target

# Proves and builds the library where anything changed; with BUILT set, takes it as it is.
library() {
    [ -n "${BUILT:-}" ] || (cd ../crates/weddrul_c && rt lib > ../../compare/target/library.log 2>&1) || {
        cat target/library.log >&2
        exit 1
    }
}
