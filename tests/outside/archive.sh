# Sourced by run and bench: goes to the repository's root and finds the engine's archive, proving and building it
# unless NESPRALHA_ARCHIVE names another one.
[ -z "${NESPRALHA_ARCHIVE:-}" ] || NESPRALHA_ARCHIVE=$(realpath -e "$NESPRALHA_ARCHIVE")
[ -z "${NESPRALHA_PROGRAM:-}" ] || export NESPRALHA_PROGRAM=$(realpath -e "$NESPRALHA_PROGRAM")
cd "$(dirname "${BASH_SOURCE[0]}")/../.."
if [ -z "${NESPRALHA_ARCHIVE:-}" ]; then
    bash tools/build
    NESPRALHA_ARCHIVE=$PWD/target/staticlib/libnespralha.a
fi
export NESPRALHA_ARCHIVE
out=$PWD/target/outside
mkdir -p "$out"

# build BINARY: one of the crate's binaries, in release.
build() {
    cargo build --release --offline --quiet --manifest-path tests/outside/Cargo.toml --target-dir "$out" --bin "$1"
}
