# Sourced by the scripts: what they need is put on the PATH, or named where it is missing.

# Rattle's command, rt: of the folder that RATTLE names and no other; where it isn't set, of the PATH, or of /opt/rattle.
need_rattle() {
    if [ -n "${RATTLE:-}" ]; then
        if [ ! -x "$RATTLE/bin/rt" ]; then
            echo "RATTLE names $RATTLE, and there is no bin/rt in it: name the folder of Rattle's kit" >&2
            exit 2
        fi
        PATH="$(cd "$RATTLE" && pwd)/bin:$PATH"
    elif ! command -v rt >/dev/null 2>&1; then
        PATH="$PATH:/opt/rattle/bin"
    fi
    if ! command -v rt >/dev/null 2>&1; then
        echo "Rattle's toolchain is missing: unpack the kit to /opt/rattle, or name its folder in RATTLE" >&2
        exit 2
    fi
}

# need COMMAND PACKAGE: a command of a Debian package, fetched where the machine lets us.
need() {
    if ! command -v "$1" >/dev/null 2>&1 && command -v apt-get >/dev/null 2>&1; then
        (apt-get update && apt-get install -y "$2") >/dev/null 2>&1 || true
    fi
    if ! command -v "$1" >/dev/null 2>&1; then
        echo "$1 is missing: install it (on Debian the package $2)" >&2
        exit 2
    fi
}

# cargo, Rust 1.63 or later, for the independent engine of tests/ and for hosts in Rust.
need_cargo() {
    command -v cargo >/dev/null 2>&1 || PATH="$PATH:${CARGO_HOME:-$HOME/.cargo}/bin"
    need cargo cargo
}

# sources FIND-WORDS..: find over the files that the proofs and programs are made of.
sources() {
    find crates.txt crates \( -name must-fail -o -name out \) -prune -o -type f "$@"
}
