#!/usr/bin/env bash
# Asks the bash completions of vest and vximage for their answers to some words, and each of the three completions of either for the commands
# and options that its code reads. Status 1 where an answer is another, or a word is missing.
#
# tools/check_completions.sh
set -uo pipefail
cd "$(dirname "$0")/.." || exit
source completions/vest.bash
source completions/vximage.bash
status=0

# `answers WANTED PROGRAM WORD ..`: what the completion of these words is, one behind the other.
answers() {
    local wanted=$1
    shift
    COMP_WORDS=("$@")
    COMP_CWORD=$(($# - 1))
    "_$1"
    if [ "${COMPREPLY[*]}" != "$wanted" ]; then
        echo "$*: ${COMPREPLY[*]}, not $wanted"
        status=1
    fi
}

# `stand PROGRAM WORD ..`: asks each completion of the program for the words.
stand() {
    local program=$1 word file
    shift
    [ $# -gt 0 ] || { echo "$program: no word is read"; status=1; }
    for word in "$@"; do
        for file in "completions/$program.bash" "completions/_$program" "completions/$program.fish"; do
            grep -qw -- "$word" "$file" || { echo "$file: no $word"; status=1; }
        done
    done
}

room=$(mktemp -d)
trap 'rm -rf "$room"' EXIT
touch "$room/sample.img" "$room/second"
# names of files are those of the folder that the shell stands in
cd "$room" || exit
answers "run translate list generate replay" vest ""
answers "translate" vest tr
answers "--budget" vest run --b
answers "" vest run x --miss ""
answers "--unkept" vest run --u
answers "--live" vest run --l
answers "--progress" vest run --p
answers "sample.img" vest run --unkept sa
answers "--target --hints" vest translate --
answers "sample.img" vest translate x --hints sa
answers "byteword" vest translate x --target b
answers "original byteword" vest run --target ""
answers "--order" vest run --o
answers "sample.img" vest run x --order sa
answers "sample.img second" vest list -- s
answers "" vest generate ""
answers "replay" vest re
answers "sample.img second" vest replay s
answers "--hints" vest replay x second --
answers "sample.img" vest replay x second --hints sa
answers "second" vest replay x second --hints h se
answers "sample.img" vest run sa

answers "make show dis help --help --version" vximage ""
answers "make" vximage m
answers "--version" vximage --v
answers "--section --start --stack" vximage make x --s
answers "" vximage make x --section ""
answers "" vximage make x --thread ""
answers "" vximage make x --stack ""
answers "sample.img" vximage make x --elf sa
answers "sample.img second" vximage make x --entries s
answers "procedures routines none" vximage make x --functions ""
answers "routines" vximage make x --functions r
answers "sample.img second" vximage make s
answers "--help" vximage show --
answers "sample.img" vximage show sa
answers "--alpha --from --to --names --help" vximage dis --
answers "" vximage dis x --from ""
answers "" vximage dis x --to ""
answers "second" vximage dis x --names se
answers "sample.img second" vximage dis -- s
cd - > /dev/null || exit

mapfile -t words < <(grep -o 'codes "[a-z]*"' crates/command_words/specs/Commands.antt | cut -d '"' -f 2 | sort -u)
stand vest "${words[@]}"
mapfile -t words < <(grep -oE '(label: |alloc, |ELF: &str = )"[a-z]+"' crates/vximage_words/src/app.rt | cut -d '"' -f 2 | sort -u)
stand vximage "${words[@]}"
exit $status
