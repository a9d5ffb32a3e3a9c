# What the scripts of this folder share. Each sets `here`, the folder bench, and `folder`, where the copy lies.
root="$(dirname "$here")"

# Takes `--in FOLDER` from the words; the others are left in `words`. With no folder a temporary one is made.
read_words() {
    folder=
    words=()
    while [ $# -gt 0 ]; do
        case "$1" in
            --in) folder="$2"; shift 2 ;;
            *) words+=("$1"); shift ;;
        esac
    done
    if [ -z "$folder" ]; then
        folder="$(mktemp -d)"
        trap 'rm -rf "$folder"' EXIT
    fi
}

# Copies the repository and adds bench/NAME to it as a crate over the named ones: copy NAME CRATE..
# The copy keeps its crates' out/, so that a second run in the same folder proves only what changed.
copy() {
    local name="$1" file
    shift
    mkdir -p "$folder/crates"
    (cd "$root" && find crates -name out -prune -o -type f -print | tar -cf - -T - HANDLES) | tar -xf - -C "$folder"
    git -C "$folder" init -q
    {
        cat "$root/crates.txt"
        echo "$name: $*"
    } >"$folder/crates.txt"
    (cd "$here/$name" && find . -name '*.txt') | while read -r file; do
        mkdir -p "$folder/crates/$name/$(dirname "$file")"
        cp "$here/$name/$file" "$folder/crates/$name/${file%.txt}"
    done
}

# Proves and builds the crate, and sets `program`. With no words the program ends with 1.
build() {
    (cd "$folder/crates/$1" && rt run --jobs 1 >"$folder/build.log" 2>&1 </dev/null || true)
    program="$folder/crates/$1/out/$1"
    [ -x "$program" ] || { tail -n 20 "$folder/build.log" >&2; exit 1; }
}

has_valgrind() {
    command -v valgrind >/dev/null && return 0
    echo "valgrind isn't there, so no instructions are counted"
    return 1
}

# The instructions of a run of the program; callgrind's file is FOLDER/NAME.callgrind: instructions NAME WORD..
instructions() {
    local name="$1"
    shift
    valgrind --tool=callgrind --callgrind-out-file="$folder/$name.callgrind" "$program" "$@" 2>&1 >/dev/null |
        sed -n 's/.*Collected : \([0-9]*\).*/\1/p'
}
