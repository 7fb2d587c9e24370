# Sourced by tests/run and tests/today, in the repository's root: parts of a test run, and the second implementation, built.
set -eu

# The programs, for the second implementation's `compare`.
programs=()
for program in session listing smalllogs; do programs+=("--$program" "crates/$program/out/$program"); done

# A part: what it is, then its command. Each ends with a line `N passed, M failed`; tests/counted counts these lines by part. A part that fails does not keep
# the others from being tried: the run ends with `exit $status`.
status=0
part() {
    echo "== $1"
    shift
    "$@" || status=1
}

if ! command -v cargo >/dev/null; then
    apt-get update -qq
    apt-get install -y -qq cargo >/dev/null
fi
export CARGO_TARGET_DIR="$PWD/target/second"
second="$CARGO_TARGET_DIR/release"
cargo build --quiet --release --offline --manifest-path tests/second/Cargo.toml
