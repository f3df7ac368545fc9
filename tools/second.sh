# Builds the second program and sets $second to it, and the seed and the number of calls of the cases that are stored with `trial`. To be
# read by a script that stands at the repository's top.
PATH=$PATH:${HOME:-}/.cargo/bin
export CARGO_TARGET_DIR=target/second
cargo build --quiet --release --offline --manifest-path second/Cargo.toml
second=$CARGO_TARGET_DIR/release/second
stored="1 20000"
