#!/bin/bash
# Cuts off and fails the built program's `translate a a` at each of its system calls, by strace. Behind each, `a` is the image or the
# translated file, whole, with its permissions; and where the program ended by itself it says so by its status, 0 or 7 or one of a file
# that wasn't read, and leaves no new file. A program that is killed may leave one, `.vest-part0`, behind which a later call goes on.
# The status is 1 where it isn't so.
#
# tools/damaged_writes.sh PROGRAM
set -u
program=$(realpath "$1")
room=$(mktemp -d)
trap 'rm -rf "$room"' EXIT
cd "$room" || exit 1

faults=0
mode=640

# the sample image: MOVL #5,R0, CHMK #2, CHMK #1
printf '\x56\x58\x49\x4d\x01\x00\x01\x00\x02\x00\x00\x00\x00\x02\x00\x00\x00\x12\x00\x00\x00\x02\x00\x00\x00\x02\x00\x00\x07\x00\x00\x00\x00\x00\x00\x00\x00\x10\x00\x00\x00\x02\x00\x00\x00\x00\x00\x00\x01\x00\x00\x00\xd0\x05\x50\xbc\x02\xbc\x01' > image
"$program" translate image translated || exit 1

fresh() {
    rm -f .vest-part*
    cp image a
    chmod $mode a
}

# wrong WHAT: what is said of a case that isn't as it should be
wrong() {
    echo "$1"
    faults=$((faults + 1))
}

# looked WHAT STATUS: `a` is whole, and is what the status says
looked() {
    local has
    if cmp -s a image; then
        has=image
    elif cmp -s a translated; then
        has=translated
    else
        wrong "$1: a is neither"
        return
    fi
    [ "$(stat -c %a a)" = $mode ] || wrong "$1: a has other permissions"
    case $2 in
    0) [ $has = translated ] || wrong "$1: status 0, and a is the image" ;;
    # 127 is of the system's loader, which had a call fail before the program began
    2 | 6 | 7 | 9 | 127) [ $has = image ] || wrong "$1: status $2, and a is the translated file" ;;
    137 | 153) return ;;
    *) wrong "$1: status $2" ;;
    esac
    [ -z "$(find . -name '.vest-part*')" ] || [ "$3" = kept ] || wrong "$1: a new file is left"
}

# case_of WHAT INJECTION KEPT
case_of() {
    local status
    fresh
    { strace -qq -f -o trace -e "inject=$2" "$program" translate a a > /dev/null; } 2> /dev/null
    status=$?
    looked "$1" $status "$3"
}

# ended WHAT INJECTION STATUS: the same, and the status is this one
ended() {
    local status
    fresh
    { strace -qq -f -o trace -e "inject=$2" "$program" translate a a > /dev/null; } 2> /dev/null
    status=$?
    [ $status = "$3" ] || wrong "$1: status $status"
    looked "$1" $status removed
}

fresh
strace -qq -f -o calls "$program" translate a a || exit 1
looked "as it stands" 0 removed
calls=$(sed -E 's/^[0-9]+ +//; s/\(.*//' calls | grep -E '^[a-z_0-9]+$')
renames=$(echo "$calls" | grep -E '^rename' | sort -u)
syncs=$(echo "$calls" | grep -E '^f(data)?sync' | sort -u)
[ -n "$renames" ] && [ -n "$syncs" ] || wrong "no call puts the file in its place, or none has the system keep it"

ended "a full disk" write:error=ENOSPC:when=1 7
for sync in $syncs; do ended "a fault at $sync" "$sync:error=EIO" 7; done
for rename in $renames; do ended "$rename to another device" "$rename:error=EXDEV" 7; done

# each call fails, and the program is killed at each: the numbers are those of the calls of one name
tried=0
for call in $(echo "$calls" | grep -v -E '^(execve|exit_group)$' | sort -u); do
    for number in $(seq "$(echo "$calls" | grep -c -x "$call")"); do
        case_of "killed at $call $number" "$call:signal=KILL:when=$number" kept
        tried=$((tried + 1))
        case $call in
        open | openat | statx | newfstatat | read | pread64 | write | f*sync | *chmod* | rename*)
            case_of "$call $number failed" "$call:error=EIO:when=$number" removed
            tried=$((tried + 1))
            ;;
        esac
    done
done
case_of "killed at the end" exit_group:signal=KILL kept

# what a kill left is no hindrance
fresh
: > .vest-part0
"$program" translate a a
looked "behind a part file" $? kept

# no new file can be removed where that call fails too
fresh
strace -qq -f -o trace -e inject=write:error=ENOSPC:when=1 -e inject=unlink,unlinkat:error=EIO "$program" translate a a > /dev/null 2>&1
looked "a full disk, and a file that can't be removed" $? kept

# a limit of file size ends the program by a signal
fresh
{ (ulimit -f 0; exec "$program" translate a a); } 2> /dev/null
looked "a limit of file size" $? kept

echo "$tried calls cut off or failed, $faults wrong"
[ $faults = 0 ]
