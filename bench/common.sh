# Read by the scripts that measure: their help, a folder for one run, and how a program of this folder is made in it.
set -eu

# Asked for help, a script prints the comment at its head, and does nothing else.
for word in "$@"; do
    case $word in
        -h | --help)
            sed -n '/^#!/d; /^#/!q; s/^# //p' "$0"
            exit
            ;;
    esac
done

here=$(cd "$(dirname "$0")" && pwd)
root=$(dirname "$here")
folder=$(mktemp -d)
trap 'rm -rf "$folder"' EXIT
trap 'exit 1' HUP INT TERM

# below LIBRARY..: these, and all libraries of the repository that they stand on.
below() {
    awk -v named="$*" '
        /^[a-z]/ { name = $1; sub(":", "", name); $1 = ""; stands_on[name] = $0 }
        END {
            last = split(named, waiting, " ")
            for (at = 1; at <= last; at++)
                if (waiting[at] in stands_on && !met[waiting[at]]++) {
                    print waiting[at]
                    more = split(stands_on[waiting[at]], lower, " ")
                    for (it = 1; it <= more; it++) waiting[++last] = lower[it]
                }
        }' "$root/crates.txt"
}

# lay_out NAME LIBRARY..: the program of NAME/*.rt.txt, which names these libraries, beside copies of all that it needs.
lay_out() {
    name=$1
    shift
    crate=$folder/crates/$name
    mkdir -p "$crate/src"
    for file in "$here/$name"/*.rt.txt; do
        cp "$file" "$crate/src/$(basename "$file" .txt)"
    done
    for library in $(below "$@"); do
        cp -pR "$root/crates/$library" "$folder/crates"
        grep "^$library:" "$root/crates.txt" >>"$folder/crates.txt"
    done
    echo "$name: $* anyhow" >>"$folder/crates.txt"
}

# build WORD..: proves and links what was laid out, over what earlier checks of the libraries kept in
# out/, and runs it once with these words. The program is then $folder/NAME.
build() {
    (cd "$crate" && rt run -- "$@") >"$folder/log" 2>&1 || {
        cat "$folder/log" >&2
        exit 1
    }
    cp "$crate/out/$name" "$folder/$name"
}
