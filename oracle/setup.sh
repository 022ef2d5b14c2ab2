# Sourced by run.sh, faults.sh, lists.sh and ratios.sh: where things stand, what is needed, the engine's static library.
#
#   DECKPLOVER_RAFT_SRC  the folder of the crate raft 0.7.0 (default: ../shared/docs/src beside the repository)
#   DECKPLOVER_LIB       the folder of libexports.a (default: it is proved and built by `bash tools/staticlib.sh`)
#   CARGO_TARGET_DIR     where all is built (default: target/oracle)

oracle=$(cd "$(dirname "${BASH_SOURCE[0]}")" && pwd)
root=$(dirname "$oracle")
export CARGO_TARGET_DIR=${CARGO_TARGET_DIR:-$root/target/oracle}
export DECKPLOVER_RAFT_SRC=${DECKPLOVER_RAFT_SRC:-$root/../shared/docs/src}
with_engine=yes
# What cargo is told beside the package: the feature that links the engine.
features=(--features engine)

step() { echo "== $*"; }

fail() {
    echo "$*" >&2
    exit 2
}

without_engine() {
    with_engine=no
    features=()
}

# Debian's packages hold the sources of the five libraries that the crate's files lean on.
need_packages() {
    command -v cargo > /dev/null || fail "needs cargo"
    [ -f "$DECKPLOVER_RAFT_SRC/src/raft_log.rs" ] || fail "no src/raft_log.rs in $DECKPLOVER_RAFT_SRC: DECKPLOVER_RAFT_SRC names the folder of raft 0.7.0"
    local package missing=()
    for package in librust-slog-dev librust-thiserror-dev librust-getset-dev librust-fxhash-dev librust-protobuf-dev; do
        dpkg -s "$package" > /dev/null 2>&1 || missing+=("$package")
    done
    [ ${#missing[@]} -eq 0 ] && return
    [ "$(id -u)" -eq 0 ] || fail "needs Debian's packages ${missing[*]}: apt-get install ${missing[*]}"
    apt-get update -qq
    apt-get install -y -qq --no-install-recommends "${missing[@]}"
}

# The proved engine, as a static library.
need_engine() {
    if [ "$with_engine" = no ]; then
        echo "NO ENGINE: the crate and the plain program alone are compared"
    elif [ -z "${DECKPLOVER_LIB:-}" ]; then
        (cd "$root" && bash tools/staticlib.sh) || fail "no static library: bash tools/staticlib.sh failed (--no-engine runs without it)"
        export DECKPLOVER_LIB=$root/target/staticlib
    fi
    [ "$with_engine" = no ] || [ -f "$DECKPLOVER_LIB/libexports.a" ] || fail "no libexports.a in $DECKPLOVER_LIB (--no-engine runs without it)"
}
