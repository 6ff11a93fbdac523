#!/bin/sh
# Makes happen what a careless user and a failing disk do to the desk's programs, and checks that no file is lost and no answer is
# a guess: every case by its name, then how many there were. Exit status: 0 all are as they should be, 1 some are not, 2 could not run.
#     tests/files.sh [WORD]     the cases whose names have the word
set -u
cd "$(dirname "$0")/.." || exit 2
here=$PWD luigi=$PWD/luigi only=${1-}

fail() {
    printf 'files.sh: %s\n' "$1" >&2
    exit 2
}

work=$(mktemp -d) || fail "no folder can be made for the cases"
chmod 755 "$work"
mounted=''
leave() {
    [ -z "$mounted" ] || umount "$mounted" 2>/dev/null
    rm -rf "$work"
}
trap leave EXIT
trap 'exit 2' HUP INT TERM

# ---- the failing system
command -v rt >/dev/null 2>&1 || fail "rt, the kit's command, is not on the path"
gcc -O1 -fno-stack-protector -fPIC -shared -o "$work/fault.so" tests/fault.c || fail "tests/fault.c cannot be compiled by gcc"

faulty() { # FAULT COMMAND..
    faults=$1
    shift
    FAULT=$faults FAULT_HERE=$work/case/here FAULT_GO=$work/case/go env LD_PRELOAD="$work/fault.so" "$@"
}

# A program without the command in front of it.
bare() { # NAME ARGUMENT..
    program=$here/target/bin/$1
    shift
    "$program" "$@"
}

# ---- the cases' tools
newline='
'
cases=0 wrongs=0 skips=0 wrong='' skipped=''

# The command, with what it says and its status kept.
run() { # COMMAND..
    "$@" >said 2>told </dev/null
    status=$?
}

differs() { wrong="$wrong; $1"; }
status_is() { [ "$status" = "$1" ] || differs "the status is $status, not $1"; }
says() { grep -q -e "$1" said || differs "it does not say '$1'"; }
tells() { grep -q -e "$1" told || differs "it does not tell '$1'"; }
one_sentence() { [ "$(wc -l <told)" -eq 1 ] || differs "it tells $(wc -l <told) lines, not one"; }
is_image() { cmp -s "$1" "$work/$2" || differs "$1 is not the $2 image, whole"; } # FILE new|old
no_part() { # [FOLDER]
    for left in "${1-.}"/.luigi-*; do [ ! -e "$left" ] && [ ! -L "$left" ] || differs "$left was left"; done
}
mode_is() { [ "$(stat -c %a "$1")" = "$2" ] || differs "the mode of $1 is $(stat -c %a "$1"), not $2"; }

# It could not run, told why in one sentence, and the old image is there.
stopped() { # WORD
    status_is 2
    one_sentence
    tells "$1"
    is_image out old
    no_part
}

await() { # FILE
    turns=0
    while [ ! -e "$1" ]; do
        turns=$((turns + 1))
        [ $turns -lt 500 ] || { differs "$1 never came"; return 1; }
        sleep 0.02
    done
}

# Each case has a folder of its own: a title, another, and the old image under the name out.
try() { # NAME WITH UNDERSCORES
    title=$(echo "$1" | tr _ ' ')
    case $title in *"$only"*) ;; *) return ;; esac
    rm -rf "$work/case"
    mkdir "$work/case"
    cd "$work/case" || fail "a case's folder cannot be entered"
    cp "$work"/title.bin "$work"/title.cfg "$work"/title.label "$work"/other.bin "$work"/other.cfg .
    cp "$work/old" out
    cases=$((cases + 1)) wrong='' skipped=''
    "$1"
    cd "$here" || fail "the desk's folder cannot be entered"
    if [ -n "$wrong" ]; then
        wrongs=$((wrongs + 1))
        echo "WRONG    $title: ${wrong#; }"
    elif [ -n "$skipped" ]; then
        skips=$((skips + 1))
        echo "skipped  $title: $skipped"
    else
        echo "ok       $title"
    fi
}

nobody() { # COMMAND..
    if [ "$(id -u)" = 0 ]; then setpriv --reuid=65534 --regid=65534 --clear-groups "$@"; else "$@"; fi
}
has_nobody() {
    chmod 777 .
    nobody sh -c '[ -r "$1" ] && [ -w . ]' sh "$luigi" 2>/dev/null || { skipped="nobody cannot reach the desk, or root cannot be nobody"; return 1; }
}

press() { run "$luigi" press title.bin title.cfg out; }
press_with() { run faulty "$1" "$luigi" press title.bin title.cfg out; }

# ---- pressing
a_new_image() {
    rm out
    umask 027
    press
    umask 022
    status_is 0
    says '^result=built$'
    is_image out new
    mode_is out 640
    no_part
}
an_old_image_is_replaced_and_keeps_its_mode() {
    chmod 604 out
    press
    status_is 0
    is_image out new
    mode_is out 604
    no_part
}
an_old_image_keeps_its_owner() {
    [ "$(id -u)" = 0 ] || { skipped="only root gives files away"; return; }
    chown 65534:65534 out
    press
    status_is 0
    is_image out new
    [ "$(stat -c %u:%g out)" = 65534:65534 ] || differs "the owner is $(stat -c %u:%g out)"
}
an_image_in_another_folder_by_a_path() {
    mkdir there
    run "$luigi" press ./title.bin ../case/title.cfg there/out
    status_is 0
    is_image there/out new
    is_image out old
    no_part there
}
a_refusal_leaves_the_old_image() {
    printf '[mapping]\n$0000 - $00FF = $5000\n$0100 - $01FF = $5000\n' >title.cfg
    press
    status_is 1
    says '^code=27$'
    says '^with=2$'
    says 'title.cfg, line 3: .* line 2 '
    is_image out old
    no_part
}
names_of_251_to_255_bytes() {
    for n in 250 251 252 253 254 255; do
        name=$(printf "%0${n}d" 0)
        run "$luigi" press title.bin title.cfg "$name"
        status_is 0
        is_image "$name" new
    done
    no_part
}
a_name_of_256_bytes() {
    run "$luigi" press title.bin title.cfg "$(printf '%0256d' 0)"
    status_is 2
    one_sentence
    tells 'name is too long'
    no_part
}
a_path_of_5000_bytes() {
    run "$luigi" press title.bin title.cfg "$(printf '%05000d' 0)"
    status_is 2
    one_sentence
    tells 'too long'
}
an_empty_name() {
    run "$luigi" press title.bin title.cfg ''
    status_is 2
    one_sentence
    no_part
}
names_that_look_like_options() {
    mv title.bin ./-n
    mv title.cfg ./--
    run "$luigi" press -n -- -e
    status_is 0
    is_image ./-e new
}

# ---- two at once
two_at_once_held_before_the_move() {
    faulty fsync:1:wait "$luigi" press title.bin title.cfg out >first.said 2>&1 </dev/null &
    first=$!
    await here || return
    is_image out old
    run "$luigi" press other.bin other.cfg out
    status_is 0
    is_image out other
    : >go
    wait $first
    status=$?
    status_is 0
    is_image out new
    no_part
}
forty_at_once() {
    n=0 all=''
    while [ $n -lt 20 ]; do
        "$luigi" press title.bin title.cfg out >/dev/null 2>>told </dev/null &
        all="$all $!"
        "$luigi" press other.bin other.cfg out >/dev/null 2>>told </dev/null &
        all="$all $!"
        n=$((n + 1))
    done
    for one in $all; do
        wait "$one"
        status=$?
        status_is 0
    done
    cmp -s out "$work/new" || is_image out other
    no_part
}
a_part_file_of_somebody_else() {
    echo kept >out.part
    ln -s kept2 out2.part
    press
    status_is 0
    [ "$(cat out.part)" = kept ] || differs "out.part changed"
    run "$luigi" press title.bin title.cfg out2
    status_is 0
    [ -L out2.part ] && [ ! -e kept2 ] || differs "out2.part was written through"
}
the_name_of_the_part_is_taken_by_a_file() {
    echo kept >.luigi-0000002a0000000000000000
    press_with getpid:1:same,getentropy:1:same
    status_is 2
    tells 'no file can be made'
    is_image out old
    [ "$(cat .luigi-0000002a0000000000000000)" = kept ] || differs "the other's file changed"
}
the_name_of_the_part_is_taken_by_a_link() {
    echo kept >kept
    ln -s kept .luigi-0000002a0000000000000000
    press_with getpid:1:same,getentropy:1:same
    status_is 2
    is_image out old
    [ "$(cat kept)" = kept ] || differs "it was written through the link"
}
a_system_without_chance() {
    press_with getentropy:1:38
    status_is 0
    is_image out new
    no_part
}

# ---- never over an input, through a link, over what is no file
out_is_the_bin_by_name() {
    cp title.bin before
    run "$luigi" press title.bin title.cfg title.bin
    status_is 2
    one_sentence
    tells 'title.bin is one of the files that were read'
    cmp -s title.bin before || differs "the BIN is lost"
    no_part
}
out_is_the_cfg_by_another_path() {
    cp title.cfg before
    run "$luigi" press title.bin title.cfg ../case/./title.cfg
    status_is 2
    one_sentence
    tells 'one of the files that were read'
    cmp -s title.cfg before || differs "the CFG is lost"
}
out_is_the_bin_by_a_hard_link() {
    cp title.bin before
    ln title.bin linked
    run "$luigi" press title.bin title.cfg linked
    status_is 2
    tells 'linked is one of the files that were read'
    cmp -s title.bin before || differs "the BIN is lost"
}
the_bin_is_a_link_to_out() {
    cp title.bin before
    ln -s title.bin linked
    run "$luigi" press linked title.cfg title.bin
    status_is 2
    tells 'one of the files that were read'
    cmp -s title.bin before || differs "the BIN is lost"
}
out_is_a_link_to_the_bin() {
    cp title.bin before
    ln -s title.bin linked
    run "$luigi" press title.bin title.cfg linked
    status_is 2
    tells 'linked is a link'
    cmp -s title.bin before || differs "the BIN is lost"
}
out_is_a_link() {
    ln -s out linked
    run "$luigi" press title.bin title.cfg linked
    stopped 'linked is a link'
    [ -L linked ] || differs "the link was replaced"
}
out_is_a_link_to_nothing() {
    ln -s nothing linked
    run "$luigi" press title.bin title.cfg linked
    stopped 'linked is a link'
    [ -L linked ] && [ ! -e nothing ] || differs "something was written"
}
the_folder_of_out_is_a_link() {
    mkdir there
    ln -s there linked
    run "$luigi" press title.bin title.cfg linked/out
    status_is 0
    is_image there/out new
    no_part there
}
out_is_a_fifo() {
    mkfifo pipe
    run "$luigi" press title.bin title.cfg pipe
    stopped 'pipe is no regular file'
    [ -p pipe ] || differs "the FIFO was replaced"
}
out_is_a_device() {
    before=$(stat -c %F:%t:%T /dev/null)
    run "$luigi" press title.bin title.cfg /dev/null
    stopped '/dev/null is no regular file'
    [ "$(stat -c %F:%t:%T /dev/null)" = "$before" ] || differs "/dev/null was replaced"
}
out_is_a_folder() {
    mkdir there
    for name in there there/ there/. .; do
        run "$luigi" press title.bin title.cfg "$name"
        stopped 'is no regular file'
    done
    [ -d there ] || differs "the folder was replaced"
}
out_in_no_folder() {
    run "$luigi" press title.bin title.cfg nowhere/out
    stopped 'no such file or folder'
}
out_below_a_file() {
    run "$luigi" press title.bin title.cfg title.bin/out
    stopped 'no folder'
}
out_is_write_protected() {
    has_nobody || return
    [ "$(id -u)" != 0 ] || chown 65534:65534 out
    chmod 444 out
    run nobody "$luigi" press title.bin title.cfg out
    stopped 'out is write-protected'
}
the_folder_is_write_protected() {
    has_nobody || return
    mkdir there
    cp out there/out
    chmod 666 there/out
    chmod 555 there
    run nobody "$luigi" press title.bin title.cfg there/out
    status_is 2
    one_sentence
    tells 'no file can be made in the folder of there/out (not permitted)'
    is_image there/out old
}

# ---- a failing disk
a_full_disk() {
    mkdir full
    mount -t tmpfs -o size=16k tmpfs full 2>/dev/null || { skipped="no file system can be mounted; the next cases go by the failing system"; return; }
    mounted=$work/case/full
    cp out full/out
    run "$luigi" press title.bin title.cfg full/out
    status_is 2
    one_sentence
    tells 'full/out cannot be written whole (the disk is full)'
    is_image full/out old
    no_part full
    umount full
    mounted=''
}
a_disk_that_is_full_at_the_first_write() {
    press_with write:1:28
    stopped 'out cannot be written whole (the disk is full)'
}
a_disk_that_is_full_in_the_middle() {
    press_with write:1:short,write:7:28
    stopped 'out cannot be written whole (the disk is full)'
}
a_disk_that_takes_little_at_a_time() {
    press_with write:1:short
    status_is 0
    is_image out new
}
a_limit_on_a_files_size() {
    run sh -c 'trap "" XFSZ; ulimit -f 8; exec "$@"' sh "$luigi" press title.bin title.cfg out
    stopped "limit on a file's size"
}
a_limit_on_a_files_size_that_kills() {
    run sh -c 'ulimit -c 0; ulimit -f 8; exec "$@"' sh "$luigi" press title.bin title.cfg out
    stopped 'pressing was broken off'
}
a_sync_that_fails() {
    press_with fsync:1:5
    stopped 'out cannot be written whole (the disk reports an error)'
}
a_file_system_that_cannot_sync() {
    press_with fsync:1:22,fsync:2:22
    status_is 0
    is_image out new
    no_part
}
# Today's library loses the error of a close, so that no program can tell it and this case is wrong (docs/PORT.md).
a_close_that_fails() {
    press_with close:3:5
    stopped 'out cannot be written whole (the disk reports an error)'
}
a_move_that_fails() {
    press_with rename:1:5
    stopped 'cannot be moved over out'
}
a_mode_that_cannot_be_kept() {
    chmod 600 out
    press_with fchmod:1:1
    stopped 'out has a mode'
    mode_is out 600
}
a_read_only_disk() {
    mkdir fixed
    cp out fixed/out
    mount -t tmpfs tmpfs fixed 2>/dev/null || { skipped="no file system can be mounted"; return; }
    mounted=$work/case/fixed
    cp out fixed/out
    mount -o remount,ro fixed
    run "$luigi" press title.bin title.cfg fixed/out
    status_is 2
    one_sentence
    tells 'the disk is read-only'
    is_image fixed/out old
    umount fixed
    mounted=''
}
a_bin_that_cannot_be_read_at_its_start() {
    press_with read:1:5
    stopped 'title.bin cannot be read to its end (the disk reports an error)'
}
a_bin_that_cannot_be_read_in_its_middle() {
    press_with read:1:short,read:3:5
    stopped 'title.bin cannot be read to its end (the disk reports an error)'
}
a_bin_that_cannot_be_read_at_its_end() {
    press_with read:2:5
    stopped 'title.bin cannot be read to its end (the disk reports an error)'
}
a_cfg_that_cannot_be_read_at_its_end() {
    press_with read:4:5
    stopped 'title.cfg cannot be read to its end (the disk reports an error)'
}
a_disk_that_gives_little_at_a_time() {
    press_with read:1:short
    status_is 0
    is_image out new
}
a_bin_that_is_missing() {
    rm title.bin
    press
    stopped 'title.bin cannot be opened (there is no such file'
}
a_bin_that_is_a_folder() {
    rm title.bin
    mkdir title.bin
    press
    stopped 'title.bin is a folder'
}
a_cfg_that_may_not_be_read() {
    has_nobody || return
    chmod 666 out
    chmod 000 title.cfg
    run nobody "$luigi" press title.bin title.cfg out
    stopped 'title.cfg cannot be opened (not permitted)'
}
a_bin_that_is_too_long() {
    head -c 524290 /dev/zero >title.bin
    press
    status_is 1
    says '^code=21$'
    is_image out old
}
a_bin_without_end() {
    run "$luigi" press /dev/zero title.cfg out
    status_is 1
    says '^code=21$'
    is_image out old
}
a_title_from_pipes() {
    mkfifo pipe.bin pipe.cfg
    cat title.bin >pipe.bin &
    cat title.cfg >pipe.cfg &
    run "$luigi" press pipe.bin pipe.cfg out
    wait
    status_is 0
    is_image out new
}

# ---- kills
killed_at_the_write() {
    press_with write:1:kill
    stopped 'pressing was broken off'
}
killed_in_the_middle_of_the_write() {
    press_with write:1:short,write:9:kill
    stopped 'pressing was broken off'
}
killed_before_the_sync() {
    press_with fsync:1:kill
    stopped 'pressing was broken off'
}
killed_before_the_move() {
    press_with rename:1:kill
    stopped 'pressing was broken off'
}
killed_after_the_move() {
    press_with fsync:2:kill
    status_is 2
    one_sentence
    is_image out new
    no_part
}
held() { # starts a press of a group of its own that waits before its sync
    command -v setsid >/dev/null 2>&1 || { skipped="setsid is missing"; return 1; }
    faulty fsync:1:wait setsid -w "$luigi" press title.bin title.cfg out >said 2>told </dev/null &
    held=$!
    await here || return 1
    part=$(echo .luigi-*)
    program=$((0x$(echo "$part" | cut -c8-15)))
    group=$(ps -o pgid= -p "$program" | tr -d ' ')
}
the_program_killed_from_outside() {
    held || return
    kill -9 "$program"
    wait "$held"
    status=$?
    stopped 'pressing was broken off'
}
the_command_told_to_stop() {
    held || return
    kill -TERM "$group"
    : >go
    wait "$held"
    status=$?
    status_is 2
    one_sentence
    cmp -s out "$work/old" || is_image out new
    no_part
}
all_told_to_stop_at_once() {
    held || return
    kill -TERM -"$group"
    wait "$held"
    status=$?
    stopped 'pressing was broken off'
}
all_killed_at_once() {
    held || return
    kill -9 -"$group"
    wait "$held" 2>/dev/null
    is_image out old
    [ -e "$part" ] || differs "the part file is gone, and nobody could have removed it"
    rm -f "$part"
    press
    status_is 0
    is_image out new
    no_part
}

# ---- standard input, output and error
output_closed() {
    "$luigi" press title.bin title.cfg out >&- 2>told </dev/null
    status=$?
    stopped 'standard output is closed'
}
output_full() {
    "$luigi" press title.bin title.cfg out >/dev/full 2>told </dev/null
    status=$?
    status_is 2
    one_sentence
    tells 'out is pressed'
    is_image out new
}
output_to_a_reader_that_went_away() {
    mkfifo pipe
    (exec 4<pipe) &
    ("$luigi" press title.bin title.cfg out 2>told </dev/null; echo $? >status) >pipe
    wait
    status=$(cat status)
    status_is 2
    one_sentence
    is_image out new
}
input_and_messages_closed() {
    "$luigi" press title.bin title.cfg out >said 2>&- <&-
    status=$?
    status_is 0
    is_image out new
}
a_stop_with_messages_closed() {
    "$luigi" press nothing title.cfg out >said 2>&- <&-
    status=$?
    status_is 2
    says '^result=stopped$'
    says '^file=BIN$'
    is_image out old
}
a_bare_program_with_its_output_closed() {
    cp title.bin before
    bare press title.bin title.cfg out >&- 2>/dev/null </dev/null
    cmp -s title.bin before || differs "the BIN changed"
    cmp -s out "$work/old" || is_image out new
    no_part
}
a_bare_program_with_all_closed() {
    bare press title.bin title.cfg out >&- 2>&- <&-
    cmp -s out "$work/old" || is_image out new
    no_part
}
a_bare_program_without_arguments() {
    run bare press
    says '^result=stopped$'
    says '^why=argument$'
}

# ---- the card
a_card() {
    run "$luigi" card "$work/new"
    status_is 0
    says '^result=loaded$'
}
a_card_from_a_pipe() {
    mkfifo pipe
    cat "$work/new" >pipe &
    run "$luigi" card pipe
    wait
    status_is 0
    says '^result=loaded$'
}
a_card_from_standard_input() {
    cat "$work/new" | "$luigi" card - >said 2>told
    status=$?
    status_is 0
    says '^result=loaded$'
}
a_card_of_closed_standard_input() {
    "$luigi" card - >said 2>told <&-
    status=$?
    status_is 2
    tells 'standard input is closed'
}
a_card_that_cannot_be_read() {
    for when in 1:5 2:5 1:21; do
        run faulty "read:$when" "$luigi" card "$work/new"
        status_is 2
        one_sentence
        tells 'new'
        says '^why=read$'
    done
}
a_card_that_cannot_be_read_in_its_middle() {
    for turn in 2 3 9 19 20; do
        run faulty "read:1:short,read:$turn:5" "$luigi" card "$work/new"
        status_is 2
        one_sentence
        tells 'cannot be read to its end (the disk reports an error)'
    done
}
a_card_by_a_line_that_breaks() {
    command -v python3 >/dev/null 2>&1 || { skipped="python3 is missing"; return; }
    python3 - "$luigi" "$work/new" >said 2>told <<'END'
import os, pty, subprocess, sys, tty
near, far = pty.openpty()
tty.setraw(far)
run = subprocess.Popen([sys.argv[1], "card", "-"], stdin=near)
os.write(far, open(sys.argv[2], "rb").read()[:2000])
os.close(far)
sys.exit(run.wait())
END
    status=$?
    status_is 2
    says '^why=read$'
}
a_card_of_a_missing_file() {
    run "$luigi" card nothing
    status_is 2
    one_sentence
    tells 'nothing cannot be opened'
}
a_card_of_a_folder() {
    run "$luigi" card .
    status_is 2
    one_sentence
    tells 'is a folder'
}
a_card_of_nothing() {
    : >nothing
    run "$luigi" card nothing
    status_is 1
    says '^code=1$'
}
a_card_of_a_sound_title_of_five_pages() {
    { echo '[mapping]'; for x in 5 6 7 8 9; do echo "\$0000 - \$0FFF = \$${x}000"; done; } >title.cfg
    press
    status_is 0
    run "$luigi" card out
    status_is 1
    says 'longer than 24,576 bytes'
    { echo '[mapping]'; for x in 5 6 7 8 9; do echo "\$0000 - \$00FF = \$${x}000"; done; } >title.cfg
    press
    run "$luigi" card out
    status_is 1
    says '^code=9$'
    says "16,384 words"
    # the byte that is named is that of the data block, behind the frame and the address of the first word that the card has not
    at=$(sed -n 's/^at=//p' said)
    says "byte $at: "
    [ "$(od -An -tx1 -j $((at - 11)) -N 1 out | tr -d ' ')" = 02 ] || differs "no hunk's block starts 11 bytes before byte $at"
    [ "$(od -An -tx1 -j $((at - 3)) -N 3 out | tr -d ' ')" = 004000 ] || differs "byte $at is not behind the address 16,384"
}
a_card_with_its_output_closed_or_full() {
    "$luigi" card "$work/new" >&- 2>told </dev/null
    status=$?
    status_is 2
    one_sentence
    "$luigi" card "$work/new" >/dev/full 2>told </dev/null
    status=$?
    status_is 2
    one_sentence
    : >nothing
    "$luigi" card nothing >/dev/full 2>told </dev/null
    status=$?
    status_is 2
}

# ---- back to BIN and CFG
a_title_back_to_its_sources() {
    run "$luigi" unpress "$work/new" back.bin back.cfg
    status_is 0
    says '^result=written$'
    says "^bin=$(($(wc -c <back.bin)))$"
    says "^cfg=$(($(wc -c <back.cfg)))$"
    run "$luigi" press back.bin back.cfg out
    status_is 0
    tail -c +33 out >again
    tail -c +33 "$work/new" >first
    cmp -s again first || differs "what was pressed again is not the image behind its header"
    no_part
}
one_file_for_bin_and_cfg() {
    run "$luigi" unpress "$work/new" back ./back
    status_is 2
    one_sentence
    tells 'are one file'
    [ ! -e back ] || differs "a file was written"
}
sources_of_a_damaged_image() {
    head -c 1300 "$work/new" >image
    run "$luigi" unpress image back.bin back.cfg
    status_is 1
    says '^code=5$'
    says '^at=32$'
    [ ! -e back.bin ] && [ ! -e back.cfg ] || differs "a file was written"
}
sources_over_the_image() {
    cp "$work/new" image
    run "$luigi" unpress image image back.cfg
    status_is 2
    one_sentence
    tells 'one of the files that were read'
    is_image image new
}

# ---- labels
a_title_with_its_label() {
    run "$luigi" press title.bin title.cfg out title.label
    status_is 0
    run "$luigi" labels out
    status_is 0
    cmp -s said "$here/examples/four_in_one.shelf.txt" || differs "it does not print the example's shelf label"
    run "$luigi" card out
    status_is 0
}
the_label_that_the_example_explains() {
    "$here/examples/label.sh" >made
    cmp -s made title.label || differs "examples/label.sh does not write the example's label file"
}
a_label_before_the_images_own() {
    printf '\000\003New\002\001A' >new.label
    run "$luigi" press title.bin title.cfg out title.label
    run "$luigi" labels out new.label
    status_is 0
    says '^name=New$'
    says '^author=A$'
    says '^author=B. Writer$'
    [ "$(sed -n '1,2p' said)" = "result=shown${newline}name=New" ] || differs "it does not begin with the label's name"
}
a_label_with_bytes_that_a_screen_obeys() {
    printf '\000\011\033[2J\\\n\015a\377' >new.label
    run "$luigi" labels "$work/new" new.label
    status_is 0
    says '^name=\\x1B\[2J\\\\\\x0A\\x0Da\\xFF$'
    LC_ALL=C grep -q '[^ -~]' said && differs "a byte that is no sign came out"
}
an_image_without_labels() {
    run "$luigi" labels "$work/new"
    status_is 0
    [ "$(cat said)" = "result=shown${newline}texts=0" ] || differs "it prints more than that there are none"
}
a_label_that_is_cut_or_too_long() {
    printf '\000\004New' >new.label
    run "$luigi" press title.bin title.cfg out new.label
    status_is 1
    says '^code=12$'
    is_image out old
    run "$luigi" labels "$work/new" new.label
    status_is 1
    says '^code=12$'
    says '^at=0$'
    says 'new.label is cut'
    head -c 65536 /dev/zero >new.label
    run "$luigi" labels "$work/new" new.label
    status_is 1
    says '^code=12$'
}
labels_of_a_damaged_image() {
    run "$luigi" press title.bin title.cfg out title.label
    printf '\377' | dd of=out bs=1 seek=1330 conv=notrunc 2>/dev/null
    run "$luigi" labels out
    status_is 1
    says '^code=12$'
    says '^at=1320$'
    says 'out, byte 1320: the metadata block'
}
labels_of_what_cannot_be_read() {
    run "$luigi" labels nothing
    status_is 2
    one_sentence
    tells 'nothing cannot be opened'
    run "$luigi" labels "$work/new" nothing
    status_is 2
    one_sentence
    says '^file=LABEL$'
    tells 'nothing cannot be opened'
    run faulty read:1:5 "$luigi" labels "$work/new"
    status_is 2
    one_sentence
    tells 'cannot be read to its end'
}
out_is_the_label() {
    cp title.label before
    run "$luigi" press title.bin title.cfg title.label title.label
    status_is 2
    one_sentence
    tells 'title.label is one of the files that were read'
    cmp -s title.label before || differs "the label file is lost"
}

# ---- salvage
# The first block behind the tables is at byte 1,320 of a pressed image.
salvage() { run "$luigi" salvage "$1" out; }
damage() { # FILE PLACE
    byte=$(od -An -tu1 -j "$2" -N 1 "$1" | tr -d ' ')
    # shellcheck disable=SC2059
    printf "\\$(printf %03o $((byte ^ 1)))" | dd of="$1" bs=1 seek="$2" conv=notrunc 2>/dev/null
}
behind() { # FILE PLACE
    # shellcheck disable=SC2046
    set -- "$2" $(od -An -tu1 -j $(($2 + 1)) -N 2 "$1")
    echo $(($1 + 8 + $2 + 256 * $3))
}
a_sound_image_is_salvaged_as_it_is() {
    chmod 604 out
    salvage "$work/new"
    status_is 0
    says '^kept=35$'
    says '^dropped=0$'
    says '^stopped=none$'
    says 'nothing was lost'
    is_image out new
    mode_is out 604
    no_part
}
a_damaged_hunk_is_left_out() {
    cp "$work/new" image
    damage image 1340
    head -c 1320 image >kept
    tail -c +$(($(behind image 1320) + 1)) image >>kept
    salvage image
    status_is 0
    says '^kept=34$'
    says '^dropped=1$'
    says '^stopped=none$'
    says '^drop=1320$'
    says 'out has 34 of the 35 blocks of image: 1 damaged'
    cmp -s out kept || differs "out is not the header and the sound blocks"
    run "$luigi" card out
    status_is 0
    says '^blocks=34$'
    cp out once
    salvage once
    status_is 0
    says 'nothing was lost'
    cmp -s out once || differs "a second salvage changed it"
    no_part
}
a_damaged_frame_stops_it() {
    cp "$work/new" image
    at=$(behind image 1320)
    damage image 1340
    damage image $((at + 3))
    { head -c 1320 image; printf '\377'; } >kept
    salvage image
    status_is 0
    [ "$(sed -n '1,4p' said)" = "kept=1
dropped=1
stopped=$at
drop=1320" ] || differs "it says '$(cat said)'"
    says "before byte $at: 1 damaged"
    cmp -s out kept || differs "out is not the header and the tables"
}
an_image_without_its_end() {
    head -c "$(behind "$work/new" 1320)" "$work/new" >image
    { cat image; printf '\377'; } >kept
    salvage image
    status_is 0
    says '^kept=2$'
    says '^stopped=none$'
    cmp -s out kept || differs "out is not closed with 0xFF"
}
damaged_tables_are_refused() {
    cp "$work/new" image
    damage image 50
    salvage image
    status_is 1
    [ "$(sed -n '1,3p' said)" = "result=refused
code=6
at=32" ] || differs "it says '$(cat said)'"
    is_image out old
    no_part
}
no_tables_before_the_stop() {
    cp "$work/new" image
    damage image 35
    salvage image
    status_is 1
    says '^code=8$'
    says "^at=$(($(wc -c <image)))$"
    is_image out old
}
a_longer_image_is_not_salvaged() {
    { cat "$work/new"; head -c 24577 /dev/zero; } | head -c 24577 >image
    salvage image
    status_is 1
    says '^code=30$'
    says 'longer than 24,576 bytes'
    is_image out old
    head -c 24576 image >shorter
    salvage shorter
    status_is 0
    is_image out new
}
a_salvage_over_its_image() {
    cp "$work/new" image
    run "$luigi" salvage image ../case/image
    status_is 2
    one_sentence
    tells 'one of the files that were read'
    is_image image new
    no_part
}
a_salvage_of_no_file() {
    salvage nothing
    stopped 'nothing cannot be opened'
}
a_salvage_to_a_full_disk() {
    run faulty write:1:28 "$luigi" salvage "$work/new" out
    stopped 'out cannot be written whole (the disk is full): it is as it was; make room and salvage again'
}

# ---- what the sentences explain
code_28_in_chapter_4() {
    printf '[mapping]\n$0000 - $00FF = $4800\n$0000 - $07FF = $4800 PAGE 1\n' >title.cfg
    press
    status_is 1
    says '^code=28$'
    says 'pages at $4800'
}
code_28_in_chapter_12() {
    printf '[mapping]\n$0000 - $00FF = $C000\n$0000 - $0FFF = $C000 PAGE 1\n' >title.cfg
    press
    status_is 1
    says '^code=28$'
    says 'pages at $C000'
}
code_26_for_a_page_at_4000() {
    printf '[mapping]\n$0000 - $0FFF = $4000 PAGE 1\n' >title.cfg
    press
    status_is 1
    says '^code=26$'
    says 'of $4800 ($800 words, so never $4000)'
}

# ---- the largest titles: 128 lines, and 128 pages of 4,096 words
pages() { # HOW MANY, from page 0 of chapter 5 on
    n=0
    while [ $n -lt "$1" ]; do
        printf '$0000 - $0FFF = $%X000 PAGE %X\n' $((5 + n / 16)) $((n % 16))
        n=$((n + 1))
    done
}
a_title_of_128_lines_and_128_pages_in_16_bits() {
    yes | head -c 524288 >title.bin
    { echo '[mapping]'; pages 128; } >title.cfg
    press
    status_is 0
    says '^length=1082665$'
    says '^needed=524288$'
    [ "$(wc -c <out)" = 1082665 ] || differs "the image has $(wc -c <out) bytes"
}
a_title_of_128_lines_and_139_pages() {
    yes | head -c 524288 >title.bin
    { printf '[mapping]\n$0000 - $0AFF = $0500\n$0000 - $0FFF = $2000\n$0000 - $BFFF = $4000\n'; pages 125; } >title.cfg
    press
    status_is 1
    says '^code=20$'
    says '^at=0$'
    is_image out old
}
a_title_of_129_lines() {
    { echo '[mapping]'; pages 129; } >title.cfg
    press
    status_is 1
    says '^code=24$'
    says '^at=130$'
}
a_title_whose_128th_line_collides() {
    { echo '[mapping]'; pages 127; echo '$0000 - $0FFF = $5000 PAGE 0'; } >title.cfg
    press
    status_is 1
    says '^code=27$'
    says '^at=129$'
    says '^with=2$'
}

# ---- the command itself
no_arguments() {
    run "$luigi"
    status_is 2
    tells '^luigi press'
    [ ! -s said ] || differs "usage went to standard output"
}
arguments_that_are_none() {
    for words in 'press a b' 'press a b c d e' 'card' 'card a b' 'map' 'labels' 'labels a b c' 'salvage a' 'unpress a b' 'bus a' 'vectors a b'; do
        # shellcheck disable=SC2086
        run "$luigi" $words
        status_is 2
        tells "^luigi: .*: write luigi ${words%% *}"
    done
}
a_command_that_is_none() {
    run "$luigi" prss a b c
    status_is 2
    tells '^luigi: there is no command prss: luigi help names them all'
}
help_is_asked_for() {
    run "$luigi" help
    status_is 0
    says '^luigi press'
}
the_command_by_links() {
    ln -s "$luigi" one
    mkdir there
    ln -s ../one there/two
    run there/two press title.bin title.cfg out
    status_is 0
    is_image out new
}
the_command_from_the_path() {
    mkdir there
    ln -s "$luigi" there/luigi
    PATH=$work/case/there:$PATH
    run luigi press title.bin title.cfg out
    PATH=${PATH#*:}
    status_is 0
    is_image out new
}
without_rt() {
    mkdir there
    for tool in sh sed find cat dirname readlink uname printf env; do ln -s "$(command -v $tool)" there/$tool 2>/dev/null; done
    run env PATH="$work/case/there" "$luigi" press title.bin title.cfg out
    stopped 'rt, the kit.s command, is not on the path'
}

# A desk with a kit that only notes what it is asked.
stand_in() {
    mkdir -p desk/crates/press/src desk/target/bin kit/docs kit/bin
    cp "$luigi" desk/luigi
    echo 'press:' >desk/crates.txt
    echo 'fn main() {}' >desk/crates/press/src/main.rt
    cat >kit/bin/rt <<END
#!/bin/sh
case \$1 in
doc) echo "$work/case/kit/docs/START-HERE.md" ;;
run)
    echo "\$PWD" >>"$work/case/asked"
    mkdir -p out
    [ ! -e "$work/case/broken" ] || { echo 'rt: FAILED: press'; exit 1; }
    printf '#!/bin/sh\nprintf "result=built\\\\nlength=1\\\\nneeded=4096\\\\n"\n' >out/press
    chmod +x out/press
    ;;
esac
END
    chmod +x kit/bin/rt
    : >asked
}
stood_in() { run env PATH="$work/case/kit/bin:$PATH" desk/luigi press title.bin title.cfg out; }
asked() { [ "$(wc -l <asked)" -eq "$1" ] || differs "rt was asked to check $(wc -l <asked) times, not $1"; }
a_source_that_changed() {
    stand_in
    stood_in
    status_is 0
    asked 1
    stood_in
    status_is 0
    asked 1
    sleep 0.1
    echo 'fn main() { }' >desk/crates/press/src/main.rt
    stood_in
    status_is 0
    asked 2
    stood_in
    asked 2
    sleep 0.1
    mkdir -p desk/crates/press/proofs
    stood_in
    asked 3
    sleep 0.1
    echo 'press: io' >desk/crates.txt
    stood_in
    asked 4
    stood_in
    asked 4
}
a_source_that_does_not_build() {
    stand_in
    stood_in
    status_is 0
    sleep 0.1
    echo 'fn' >desk/crates/press/src/main.rt
    : >broken
    stood_in
    status_is 2
    one_sentence
    tells 'press could not be built .* see target/luigi-press.log'
    rm broken
    stood_in
    status_is 0
    asked 3
}
an_answer_that_is_cut() {
    stand_in
    stood_in
    printf '#!/bin/sh\nprintf "result=built\\nlength=1\\n"\n' >desk/target/bin/press
    stood_in
    status_is 2
    one_sentence
    tells 'press did not finish its answer'
    printf '#!/bin/sh\n' >desk/target/bin/press
    stood_in
    status_is 2
    tells 'press gave no answer'
}

# ---- the vectors
# Two programs have the families between them, and each says in its last line what it ran.
families_of() { sed -n '$s/.*, \([0-9]*\) of .*/\1/p' "$here/crates/$1/stdout"; }
families=$(families_of vectors)
desk_families=$(families_of vectors_desk)
ran_all() { # LINE WORDS
    sed -n 's/^all: [0-9]* cases, //p' said | sed -n "$1p" | grep -q "^$2\$" || differs "the lines are '$(grep '^all: ' said)'"
}
all_files() { # The files of both, in the folder data.
    mkdir data
    cp "$here"/crates/vectors/data/*.vec "$here"/crates/vectors_desk/data/*.vec data
}
all_vectors() {
    run "$luigi" vectors
    status_is 0
    cat "$here/crates/vectors/stdout" "$here/crates/vectors_desk/stdout" | cmp -s - said || differs "the lines are not those of crates/vectors/stdout and crates/vectors_desk/stdout"
    ran_all 1 "0 differ, $families of $families files run"
    ran_all 2 "0 differ, $desk_families of $desk_families files run"
}
all_vectors_in_one_folder() {
    all_files
    run "$luigi" vectors data
    status_is 0
    ran_all 1 "0 differ, $families of $families files run"
    ran_all 2 "0 differ, $desk_families of $desk_families files run"
}
vectors_with_a_file_missing_or_empty() {
    all_files
    rm data/bus.vec
    : >data/load.vec
    run "$luigi" vectors data
    status_is 2
    one_sentence
    ran_all 1 "0 differ, $((families - 2)) of $families files run; a file is missing, cannot be read or is empty"
    ran_all 2 "0 differ, $desk_families of $desk_families files run"
}
vectors_with_a_file_of_the_desk_missing() {
    all_files
    rm data/runs.vec
    run "$luigi" vectors data
    status_is 2
    one_sentence
    ran_all 1 "0 differ, $families of $families files run"
    ran_all 2 "0 differ, $((desk_families - 1)) of $desk_families files run; a file is missing, cannot be read or is empty"
}
vectors_that_cannot_be_read() {
    all_files
    run faulty read:2:5 "$luigi" vectors data
    status_is 2
    one_sentence
    ran_all 1 "0 differ, $((families - 1)) of $families files run; a file is missing, cannot be read or is empty"
    ran_all 2 "0 differ, $((desk_families - 1)) of $desk_families files run; a file is missing, cannot be read or is empty"
}
vectors_that_differ() {
    all_files
    printf '\377' | dd of=data/sums.vec bs=1 seek=40 conv=notrunc 2>/dev/null
    run "$luigi" vectors data
    status_is 1
    ran_all 1 "[1-9][0-9]* differ, $families of $families files run"
    ran_all 2 "0 differ, $desk_families of $desk_families files run"
}
vectors_of_the_desk_that_differ() {
    all_files
    printf '\377' | dd of=data/dates.vec bs=1 seek=8 conv=notrunc 2>/dev/null
    run "$luigi" vectors data
    status_is 1
    ran_all 1 "0 differ, $families of $families files run"
    ran_all 2 "[1-9][0-9]* differ, $desk_families of $desk_families files run"
}

# ---- lists of accesses
a_list_of_accesses() {
    run "$luigi" bus "$work/new" "$here/examples/four_in_one.bus"
    status_is 0
    cmp -s said "$here/examples/four_in_one.words" || differs "the words are not those of examples/four_in_one.words"
}
a_list_up_to_a_limit() {
    run "$luigi" bus "$work/new" "$here/examples/four_in_one.bus" 4
    status_is 0
    sed 2q "$here/examples/four_in_one.words" >short
    echo 'lines=4' >>short
    cmp -s said short || differs "it says more or less than the first four lines"
}
a_list_with_a_malformed_line_past_the_limit() {
    printf 'op=r addr=4800\nop=R addr=4800\n' >list
    run "$luigi" bus "$work/new" list 1
    status_is 1
    says '^code=33$'
    says '^at=2$'
}
a_list_that_is_empty() {
    : >list
    run "$luigi" bus "$work/new" list
    status_is 0
    says '^lines=0$'
}
a_list_as_long_as_may_be() {
    yes 'op=r addr=0000' | head -c 4194300 >list
    run "$luigi" bus "$work/new" list
    status_is 0
    says '^lines=279620$'
    yes 'op=r addr=0000' | head -c 4194305 >list
    run "$luigi" bus "$work/new" list
    status_is 2
    one_sentence
    tells 'list is longer than 4,194,304 bytes'
}
a_list_that_is_missing() {
    run "$luigi" bus "$work/new" nothing
    status_is 2
    one_sentence
    tells 'nothing cannot be opened'
}
a_limit_that_is_no_number() {
    run "$luigi" bus "$work/new" "$here/examples/four_in_one.bus" ten
    status_is 2
    one_sentence
    tells 'ten is no limit on lines'
}
a_list_for_no_image() {
    run "$luigi" bus title.cfg "$here/examples/four_in_one.bus"
    status_is 1
    says '^code=2$'
}

# ---- maps
a_map() {
    run "$luigi" map "$work/new"
    status_is 0
    cmp -s said "$here/examples/four_in_one.map" || differs "the map is not that of examples/four_in_one.map"
}
a_map_of_a_title_without_pages() {
    printf '[mapping]\n$0000 - $00FF = $5000\n' >plain.cfg
    "$luigi" press other.bin plain.cfg plain >log 2>&1 || differs "the title cannot be pressed"
    run "$luigi" map plain
    status_is 0
    says '^\$5   #\( \.\)\{15\}$'
    says '^words=256$'
    says '^flash=0$'
    if grep -q '^pages' said; then differs "it speaks of pages"; fi
}
a_map_of_a_damaged_image() {
    head -c 2000 "$work/new" >cut
    run "$luigi" map cut
    status_is 1
    says '^code=5$'
    says '^cut, byte [0-9]*: '
}
a_map_of_no_image() {
    run "$luigi" map title.cfg
    status_is 1
    says '^code=2$'
}
a_map_of_a_file_that_is_missing() {
    run "$luigi" map nothing
    status_is 2
    one_sentence
    tells 'nothing cannot be opened'
}
a_map_of_a_folder() {
    mkdir folder
    run "$luigi" map folder
    status_is 2
    one_sentence
    tells 'folder is a folder'
}
a_map_that_cannot_be_read() {
    run faulty read:2:5 "$luigi" map "$work/new"
    status_is 2
    one_sentence
    tells 'cannot be read to its end'
}

# ---- the images that the cases are held against
cp examples/four_in_one.bin "$work/title.bin"
cp examples/four_in_one.cfg "$work/title.cfg"
cp examples/four_in_one.label "$work/title.label"
cp crates/press/data/one.bin "$work/other.bin"
cp crates/press/data/one.cfg "$work/other.cfg"
head -c 512 examples/four_in_one.bin >"$work/old.bin"
for title in title:new other:other; do
    "$luigi" press "$work/${title%:*}.bin" "$work/${title%:*}.cfg" "$work/${title#*:}" >"$work/log" 2>&1 || { cat "$work/log" >&2; fail "the titles of the cases cannot be pressed"; }
done
"$luigi" press "$work/old.bin" "$work/other.cfg" "$work/old" >"$work/log" 2>&1 || fail "the old image of the cases cannot be pressed"
"$luigi" card "$work/new" >"$work/log" 2>&1 || fail "the image of the cases has no card"

for name in $(sed -n 's/^\([a-z][a-z_0-9]*\)() {$/\1/p' "tests/files.sh"); do
    case $name in
    fail | leave | run | stopped | await | try | has_nobody | nobody | no_part | held | stand_in | faulty | bare) ;;
    *) try "$name" ;;
    esac
done
echo "$cases cases, $wrongs wrong, $skips skipped"
[ "$wrongs" -eq 0 ]
