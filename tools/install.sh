#!/usr/bin/env bash
# Copies the proved program, its page, its completions and the examples below a folder, with a file that says what they were made of; the second
# program too, where it was built. Status 1 where a program is older than any file of the crates, where the tree isn't that of a commit, also by a
# file that no commit has, and where the first example, run from the new place, writes another text.
#
# tools/install.sh PREFIX        behind `rt run` in crates/vest, and in crates/vximage for the second program
set -euo pipefail
umask 022
prefix=${1:?"usage: tools/install.sh PREFIX"}
top=$(cd "$(dirname "$0")/.." && pwd)

stop() {
    echo "$1" >&2
    exit 1
}

# Where the built program of that name is.
built() {
    echo "$top/crates/$1/out/$1"
}

# Copies the program of that name.
install_program() {
    local program newer
    program=$(built "$1")
    newer=$(find "$top/crates" "$top/crates.txt" -name out -prune -o -type f -newer "$program" -print -quit)
    [ -z "$newer" ] || stop "$1 is older than ${newer#"$top/"}"
    install -D "$program" "$prefix/bin/$1"
}

[ -x "$(built vest)" ] || stop "no program: rt run in crates/vest makes it"
[ -z "$(git -C "$top" status --porcelain)" ] || stop "files are changed: commit them first"
install_program vest
if [ -x "$(built vximage)" ]; then
    install_program vximage
    install -D -m 644 "$top/docs/man/vximage.1" "$prefix/share/man/man1/vximage.1"
    install -D -m 644 "$top/completions/vximage.bash" "$prefix/share/bash-completion/completions/vximage"
    install -D -m 644 "$top/completions/_vximage" "$prefix/share/zsh/site-functions/_vximage"
    install -D -m 644 "$top/completions/vximage.fish" "$prefix/share/fish/vendor_completions.d/vximage.fish"
fi
install -D -m 644 "$top/docs/man/vest.1" "$prefix/share/man/man1/vest.1"
install -D -m 644 "$top/completions/vest.bash" "$prefix/share/bash-completion/completions/vest"
install -D -m 644 "$top/completions/_vest" "$prefix/share/zsh/site-functions/_vest"
install -D -m 644 "$top/completions/vest.fish" "$prefix/share/fish/vendor_completions.d/vest.fish"
install -d "$prefix/share/doc/vest/examples"
install -m 644 "$top"/examples/* "$prefix/share/doc/vest/examples"
{
    echo "commit $(git -C "$top" rev-parse HEAD)"
    rt version
} > "$prefix/share/doc/vest/BUILT"

room=$(mktemp -d)
trap 'rm -rf "$room"' EXIT
sed 's/#.*//' "$prefix/share/doc/vest/examples/hello.hex" | xxd -r -p > "$room/hello.img"
"$prefix/bin/vest" run "$room/hello.img" 2> /dev/null | cmp - "$prefix/share/doc/vest/examples/hello.out" || stop "hello writes another text"
