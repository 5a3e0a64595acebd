# Sourced by the commands, which stand in the repository's root: what they are doing and how far they are, on standard error. Standard output stays
# the command's own. Where a command's output is caught, standard error too, the lines still reach the caller's: they go by descriptor 3.
exec 3>&2

say() {
    printf '%s\n' "$*" >&3
}

# proving WORD CRATE: runs rt WORD in the crate's folder, a program on the crate's own input, prints what it prints and ends as it ends. Each crate whose
# functions are proved now gets a line of progress; one that was proved before is counted with no line.
proving() {
    say "rt $1 $2: the crates that are not proved yet are proved now, which takes minutes from nothing"
    input=/dev/null
    [ "$1" != run ] || input=stdin
    (cd "crates/$2" && rt "$1" <"$input" 2>&1 && echo "proving ended 0" || echo "proving ended $?") | (
        while IFS= read -r line; do
            case $line in
            'proving ended '*) exit "${line##* }" ;;
            'checked '*', 1 of '*)
                crate=${line#checked }
                say "  ${crate%%::*}: ${line##* } functions"
                ;;
            esac
            printf '%s\n' "$line"
        done
        exit 2
    )
}

# library CRATE: target/staticlib/libCRATE.a, proved.
library() {
    mkdir -p target/staticlib
    proving lib "$1" && cp "crates/$1/out/lib$1.a" target/staticlib/ && echo "target/staticlib/lib$1.a is built"
}

# program NAME: target/bin/NAME, proved. The log program's crate is capture_log; any other program has its crate's name.
program() {
    case $1 in
    log) made=capture_log ;;
    *) made=$1 ;;
    esac
    mkdir -p target/bin
    proving run "$made" && cp "crates/$made/out/$made" "target/bin/$1" && echo "target/bin/$1 is built"
}
