# Sourced by the test scripts, in the folder tests: builds the test programs. `programs` is their folder, and `library` the one
# of the static library under test: DINGHY_LIB_DIR, else the peer as one.
if [ -n "${DINGHY_LIB_DIR:-}" ]; then
    export DINGHY_LIB_DIR
    cargo build -q --release -p peer -p harness --features harness/library \
        --target-dir ../target/peer/library
    programs=$PWD/../target/peer/library/release
    library=$DINGHY_LIB_DIR
else
    cargo build -q --release -p peer -p harness -p archive
    programs=$PWD/../target/peer/release
    library=$programs
fi
