# For the measuring scripts. What is proved in out/ isn't proved again.

# Makes a temporary copy of the repository, and goes there.
copy() {
    local top
    top=$(cd "$(dirname "${BASH_SOURCE[0]}")/../.." && pwd)
    room=$(mktemp -d)
    trap 'rm -rf "$room"' EXIT
    tar -C "$top" --exclude=.git --exclude=incremental -cf - . | tar -C "$room" -xf -
    cd "$room"
    git init -q
}

# `scratch "DEP DEP .."` makes the crate `measure` of the program on standard input, with these libraries, in such a copy,
# and goes there.
scratch() {
    copy
    echo "measure: $1" >> crates.txt
    mkdir -p crates/measure/src
    cat > crates/measure/src/main.rt
    cd crates/measure
}

# Copies the threads that share a memory, and what is proved of them, into the scratch crate: the files of tools/measure/shared without
# their last ending, since the gate wants each file of code in a crate.
workers() {
    local from=../../tools/measure/shared file
    (cd "$from" && find . -name '*.txt') | while read -r file; do
        mkdir -p "$(dirname "$file")"
        cp "$from/$file" "${file%.txt}"
    done
    : > proofs/Lib.antt
}
