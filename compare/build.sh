# What the commands of this folder share: the items of the Rust and the programs of this folder, made under target/compare, and the
# library and programs that rt makes in out/ of their crates.

root=$(cd "$(dirname "${BASH_SOURCE[0]}")/.." && pwd)
out=$root/target/compare
mkdir -p "$out"
export PYTHONDONTWRITEBYTECODE=1

# Ends with a line on standard error and a status.
fail() {
    echo "compare: $2" >&2
    exit "$1"
}

# Cuts the Rust's items out of a reference.
cut_items() {
    python3 "$root/compare/cut.py" "$1" "$out/cut.rs"
}

# Runs rt in a crate's folder; its output goes to a log.
run_rt() {
    local log=$out/$1.log
    (cd "$root/crates/$1" && rt "${@:2}") >"$log" 2>&1 || fail 1 "rt ${*:2} failed in crates/$1: see $log"
}

# Sets lib to the library, which is made unless BC7_LIB names one.
make_library() {
    lib=${BC7_LIB:-$root/crates/bc7_c/out/libbc7_c.a}
    [ -n "${BC7_LIB:-}" ] || run_rt bc7_c lib
    [ -f "$lib" ] || fail 1 "$lib: no such library"
}

# Sets program to bc7, which is made unless BC7 names one.
make_program() {
    program=${BC7:-$root/crates/bc7/out/bc7}
    [ -n "${BC7:-}" ] || run_rt bc7 run -- help
    [ -f "$program" ] && [ -x "$program" ] || fail 1 "$program: no such program"
    program=$(realpath -- "$program")
}

# Sets quality to quality_checks, which is made unless QUALITY names one. It reads standard input to its end.
make_quality() {
    quality=${QUALITY:-$root/crates/quality_checks/out/quality_checks}
    [ -n "${QUALITY:-}" ] || run_rt quality_checks run </dev/null
    [ -f "$quality" ] && [ -x "$quality" ] || fail 1 "$quality: no such program"
    quality=$(realpath -- "$quality")
}

# Sets python to Debian's own python3, for which its packages of the decoders are, unless PYTHON names another.
find_python() {
    python=${PYTHON:-/usr/bin/python3}
    command -v "$python" >/dev/null || fail 1 "$python: no such program"
}

# Compiles a program of this folder; further arguments go to rustc. The Rust's assertions and overflow checks are in it unless these
# say otherwise.
compile() {
    local name=$1
    shift
    rustc --edition 2021 -O -C debug-assertions=on -C overflow-checks=on "$root/compare/$name.rs" -o "$out/$name" "$@"
}

# Compiles C with the library's header to a name under target/compare; further arguments go to cc.
compile_c() {
    local name=$1
    shift
    local log=$out/$name.log
    cc -std=c11 -Wall -Wextra -I"$root/include" -o "$out/$name" "$@" >"$log" 2>&1 || fail 1 "cc failed: see $log"
}
