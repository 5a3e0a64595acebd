# Shared by run and bench, which stand in the repository's root: the proved library, and programs linked with it. All goes below target/, and what rt makes into crates/*/out/.
. tools/progress.sh
out=target/tests
mkdir -p "$out"

# The proved code: what a board links as target/staticlib/libvikombare.a, and calls for tests as target/staticlib/libprobe.a.
proved() {
    library vikombare && library probe
}

# build NAME FILE WORDS...: target/tests/NAME from tests/FILE, offline and with the standard library alone.
build() {
    name=$1
    from=$2
    shift 2
    rustc --edition 2021 -C opt-level=3 -C codegen-units=1 --check-cfg 'cfg(faults)' -L target/staticlib "$@" "tests/$from" -o "$out/$name"
}

# step NAME COMMAND...: the last line of what the command prints, or all of it if it fails. target/tests/NAME.log has it whole.
step() {
    log=$out/$1.log
    say "tests/${0##*/}: $1"
    shift
    if "$@" >"$log" 2>&1; then
        tail -n 1 "$log"
    else
        cat "$log"
        echo "tests: FAILED: $*"
        return 1
    fi
}
