# The verbs of ./mustorgyel, which reads this file where its first word is one of them. desk/help/VERB.txt is a verb's page.
#
# What is proved is the program target/bin/desk. It reads files that are opened here, and opens itself only those that an audit names:
#   4, 5, 6   the files, in the order typed; the program opens each anew, and reads it from its first byte
#   0         with the word 1, 2 or 3, that one of them, read from where it stands
#   7         with the word -o, where the placement file goes
#   3         where it writes one byte after all else was written, the status: 0 an answer, 1 a refusal
#   8, 9, 10  in an audit, for a name that is not UTF-8, which the program cannot open: it writes the path and a 0 byte to 8, reads one byte
#             from 9, 1 where the link was laid, and opens `link` in the folder that is open on 10
# shellcheck shell=bash
# shellcheck disable=SC2034,SC2154 # ended is read by the launcher's trap; runner, target and root are the launcher's

unset CDPATH
exec {nothing}<>/dev/null
input=open
[ -e /dev/fd/0 ] || { input=closed && exec <&"$nothing"; }

do_verb() {
    # without a trap bash lets an INT that comes to it alone go by while a command runs
    trap 'trap - INT && kill -INT $$' INT
    verb=$1
    take_words "${@:2}"
    case $verb in
    solve) count_files 1 && tell ;;
    check | loads | finish) count_files 2 && tell ;;
    carry) count_files 3 && tell ;;
    audit) count_files 1 && audit ;;
    explain) count_files 1 2 && explain ;;
    text | file) count_files 1 && twin ;;
    picture) count_files 2 3 && picture ;;
    esac
}

# ------------------------------------------------------------ the words typed

# Options stand anywhere behind the verb. Fills `files`, `output` and `force`.
take_words() {
    files=() output='' force=''
    while [ $# -gt 0 ]; do
        case $1 in
        -h | --help) show_page "$verb" ;;
        --)
            files+=("${@:2}")
            break
            ;;
        -o)
            take_output "${2:-}"
            shift
            ;;
        --force) force=yes ;;
        -?*) fail "$verb has no option $(shown "$1") (./mustorgyel $verb --help)" ;;
        *) files+=("$1") ;;
        esac
        shift
    done
    judge_options
}

take_output() {
    case $1 in
    '') fail "-o takes the name of a file" ;;
    -*) fail "-o takes the name of a file, and $(shown "./$1") where that begins with a dash" ;;
    esac
    [ -z "$output" ] || fail "-o stands there twice"
    output=$1
}

judge_options() {
    case $verb in
    solve | carry | finish | text | file) [ -z "$force" ] || [ -n "$output" ] || fail "--force goes with -o FILE" ;;
    picture) [ -z "$output" ] || fail "picture has no -o: the last word names its file" ;;
    *) [ -z "$output$force" ] || fail "$verb writes no file, so it has neither -o nor --force" ;;
    esac
}

count_files() { # LEAST [MOST]
    local form=''
    if [ ${#files[@]} -lt "$1" ] || [ ${#files[@]} -gt "${2:-$1}" ]; then
        { read -r form <"$root/desk/help/$verb.txt"; } 2>/dev/null
        fail "$verb takes another number of files: $form"
    fi
}

# A name on one line: control bytes and the backslash in octal, as an audit prints them.
shown() {
    local LC_ALL=C name=$1 sign i
    if [ "$name" = - ]; then
        name='standard input'
    elif [[ $name == *[[:cntrl:]\\]* ]]; then
        name=
        for ((i = 0; i < ${#1}; i++)); do
            sign=${1:i:1}
            [[ $sign != [[:cntrl:]\\] ]] || printf -v sign '\\%03o' "'$sign"
            name+=$sign
        done
    fi
    printf '%s' "$name"
}

# ------------------------------------------------------------ files that are read

# Opens up to three files, in order. `inputs` gets their descriptors, and one of /dev/null for each that is not there; `stream` the
# number of the file that the program is to read from where it stands, if there is one.
open_files() {
    local name dashes=0 streams=()
    inputs=() stream=''
    for name in "$@"; do
        [ "$name" != - ] || dashes=$((dashes + 1))
        [ "$dashes" -le 1 ] || fail "standard input can be one of the files only"
        open_file "$name"
        inputs+=("$opened")
        { [ "$name" != - ] && [ -f "/dev/fd/$opened" ]; } || streams+=("${#inputs[@]}")
    done
    for name in "${streams[@]}"; do
        [ -z "$stream" ] || keep_stream "$stream" "${!stream}"
        stream=$name
    done
    inputs+=("$nothing" "$nothing")
}

# Only one file can be the program's standard input. What another one gives is copied, as far as the program looks.
keep_stream() { # NUMBER NAME
    local most=16384 what
    case $verb$1 in
    check1 | loads1 | finish1) what='the net file' ;;
    carry1) what='the first net file' ;;
    carry2) what='the second net file' ;;
    *) most=65536 what=$(shown "$2") ;;
    esac
    # whoever gives pipes alone keeps nothing anywhere: any folder will do
    [ -n "$room" ] || make_room || TMPDIR=/dev/shm make_room || TMPDIR=/tmp make_room || need_room
    copy "${inputs[$1 - 1]}" "$room/stream$1" "$most" "$what"
    exec {opened}<"$room/stream$1"
    inputs[$1 - 1]=$opened
}

copy() { # FROM TO MOST WHAT
    beside head -c "$3" <&"$1" 2>/dev/null >"$2" || fail "$4 could not be read to its end"
}

open_file() {
    if [ "$1" = - ]; then
        need_input
        exec {opened}<&0
    else
        [ -e "$1" ] || fail "$(shown "$1"): no such file"
        # `command` keeps a failure from ending this shell with a status of its own
        { command exec {opened}<"$1"; } 2>/dev/null || fail "$(shown "$1") could not be opened for reading"
    fi
    [ ! -d "/dev/fd/$opened" ] || fail "$(shown "$1") is a folder, and no file"
}

need_input() { [ "$input" = open ] || fail "standard input is closed"; }

is_at_hand() { [ "$1" != - ] && [ -f "$1" ]; }

# A folder for what is needed while this runs. It has its name before it is made, so that no signal finds it without one.
make_room() {
    room=${TMPDIR:-/tmp}/mustorgyel.$$.$RANDOM$RANDOM
    mkdir -m 700 -- "$room" 2>/dev/null && return
    room=''
    return 1
}

need_room() { make_room || fail "no folder can be made in ${TMPDIR:-/tmp}, where $verb keeps what it needs while it runs"; }

# For who reads files twice: what is no regular file is copied first, as far as any reader looks. `at` gets the names of the bytes.
keep_bytes() {
    local i
    need_room
    open_files "${files[@]}"
    at=("${files[@]}")
    for i in "${!files[@]}"; do
        is_at_hand "${files[i]}" && continue
        at[i]=$room/$i
        copy "${inputs[i]}" "${at[i]}" 65536 "$(shown "${files[i]}")"
    done
}

# ------------------------------------------------------------ a file that is written

# Asked before anything is computed: may this name be given at the end? Nothing but a regular file is ever replaced.
judge_target() {
    local name
    name=$(shown "$output")
    case $output in
    */) fail "$name: that is no name of a file" ;;
    */*) folder=${output%/*}/ ;;
    *) folder=./ ;;
    esac
    [ -d "$folder" ] || fail "$name: there is no such folder"
    [ ! -L "$output" ] || fail "$name is a link, and stays one"
    [ ! -d "$output" ] || fail "$name is a folder"
    [ ! -e "$output" ] || [ -f "$output" ] || fail "$name is no regular file, and stays as it is"
    [ ! -e "$output" ] || [ -n "$force" ] || fail "$name is there already (--force replaces it)"
    [ -w "$folder" ] || fail "$name: its folder may not be written"
}

# A new file beside the target, open as `outlet`, with the mode that the umask says.
begin_file() {
    made=${folder}.mustorgyel.$$.$RANDOM$RANDOM
    set -o noclobber
    if ! { command exec {outlet}>"$made"; } 2>/dev/null; then
        made=
        fail "$(shown "$output"): no file can be made in its folder"
    fi
    set +o noclobber
}

# It gets its name in one step: whoever looks sees what was there before, or all of it.
put_in_place() {
    local name
    name=$(shown "$output")
    exec {outlet}>&-
    sync -- "$made" 2>/dev/null || fail "$name could not be written to its end"
    if [ -n "$force" ]; then
        mv -fT -- "$made" "$output" 2>/dev/null || fail "$name could not be replaced"
    elif ! ln -T -- "$made" "$output" 2>/dev/null; then
        # a file system without hard links, or a file that came there since
        mv -nT -- "$made" "$output" 2>/dev/null
        [ ! -e "$made" ] || fail "$name could not be made; what is there now was left as it is"
    fi
}

# ------------------------------------------------------------ the program

# Whoever cannot write says so from here on, and is not ended by a signal.
get_ready() {
    prepare
    trap '' PIPE XFSZ
}

# Runs the program on the open files. `text` gets what it prints and `status` the byte behind it. No line begins with such a byte.
ask() {
    local heard from=0
    [ -z "$stream" ] || from=${inputs[stream - 1]}
    exec {heard}< <(exec "${runner[@]}" "$target/bin/desk" "$@" ${stream:+"$stream"} \
        <&"$from" 3>&1 4<&"${inputs[0]}" 5<&"${inputs[1]}" 6<&"${inputs[2]}" 7>&"${outlet:-$nothing}")
    listen
    [[ $said == *$'\n'[01] ]] || no_answer
    status=${said: -1} text=${said%$'\n'?}
}

# Takes in what comes from the program until it ends.
listen() {
    IFS= read -r -d '' -u "$heard" said
    exec {heard}<&-
    wait "$!"
    result=$? ended=$!
}

# Runs a command beside this shell. A signal ends both at once: the shell waits by `wait`, as in `listen`, and not for a command of its own.
beside() {
    "$@" <&0 &
    wait "$!" 2>/dev/null
    result=$? ended=$!
    return "$result"
}

no_answer() {
    [ "$result" -eq 0 ] || fail "the program did not run to its end (status $result)"
    [ -z "$said" ] || fail "the program gave no whole answer"
    exit 2 # it has said on standard error why there is none
}

# solve, check, loads, carry, finish
tell() {
    [ -z "$output" ] || judge_target
    open_files "${files[@]}"
    get_ready
    [ -z "$output" ] || begin_file
    ask "$verb" ${output:+-o}
    print "$text"
    if [ "$status" = 1 ]; then
        (say_words)
    elif [ -n "$output" ]; then
        [ -s "$made" ] || fail "$(shown "$output") was not made: given and added entries are more than the 4,096 that a placement file holds"
        put_in_place
    fi
    leave "$status"
}

# ------------------------------------------------------------ words for a person

have_python() { command -v python3 >/dev/null; }

need_python() { have_python || fail "$verb takes python3, and there is none on the PATH"; }

tool() { beside python3 -BEs "$root/desk/$1" "${@:2}"; }

# One line on standard error after a refusal. It runs in a shell of its own: whatever goes wrong here, the refusal stands.
say_words() {
    local line=$text words='' loads='' pairs=() name
    made=''
    trap tidy EXIT
    for name in "${files[@]}"; do
        is_at_hand "$name" && pairs+=("$name" "$name") || pairs+=("$name" '')
    done
    if have_python; then
        [[ $line != 'refused 11 '* ]] || list_loads
        words=$(tool explain words "$verb" "$line" "$loads" "${pairs[@]}" 2>&1 >/dev/null) || words=''
    fi
    [ -n "$words" ] || words="mustorgyel: $line: $(meaning "$line")"
    printf '%s\n' "$words" >&2
}

# What `loads` prints of the net and the placement, in a file, where their bytes can be read again.
list_loads() {
    is_at_hand "${files[0]}" && is_at_hand "${files[-1]}" && make_room || return
    (open_files "${files[0]}" "${files[-1]}" && ask loads && printf '%s\n' "$text" >"$room/loads") 2>/dev/null && loads=$room/loads
}

# The meaning of a refusal's number, from the table of the help.
meaning() {
    [[ $1 =~ refused\ ([0-9]+) ]] || return
    awk -v "number=${BASH_REMATCH[1]}" '
        substr($0, 1, 4) ~ /[0-9]$/ { here = $1 == number }
        /^$/ { here = 0 }
        here { because = because " " substr($0, 8, 60) }
        END { gsub(/ +/, " ", because); gsub(/^ | $/, "", because); print because }' "$root/desk/help/mustorgyel.txt"
}

# ------------------------------------------------------------ explain, picture

# What `check` says of a net and a placement, or `solve` of a net: its first line in `line` and its status in `verdict`. The file
# $room/text gets the loads, or the refusal where there are none.
judge_files() {
    local asked=solve
    [ ${#files[@]} -eq 1 ] || asked=check
    open_files "${at[@]}"
    ask "$asked"
    line=${text%%$'\n'*} verdict=$status
    if [ "$asked" = check ] && [[ $line =~ ^(legal|refused 1[12])\  ]]; then
        open_files "${at[@]}"
        ask loads
    fi
    printf '%s\n' "$text" 2>/dev/null >"$room/text" || fail "a file in $room could not be written"
}

explain() {
    local loads='' pairs=() page i
    need_python
    keep_bytes
    get_ready
    judge_files
    [ "$status" = 1 ] || loads=$room/text
    for i in "${!files[@]}"; do
        pairs+=("${files[i]}" "${at[i]}")
    done
    page=$(tool explain show "$line" "$loads" "${pairs[@]}") || tool_failed $?
    end "$verdict" "$page"
}

# A net that reads is drawn, with its loads where it has any; a placement that does not stand on it is not.
picture() {
    need_python
    output=${files[-1]}
    unset 'files[-1]'
    [[ $output == *.svg ]] || fail "the picture's name ends in .svg, and $(shown "$output") does not"
    judge_target
    keep_bytes
    get_ready
    judge_files
    [[ $line =~ ^(least|legal|refused [89]|refused 1[12])\  ]] || end 1 "$line"
    begin_file
    draw
    [ "$verdict" = 0 ] || print "$line"
    put_in_place
    leave "$verdict"
}

draw() {
    local why=''
    tool picture "$(shown "${files[0]}")" "${at[0]}" "$room/text" "$line" 1>&"$outlet" 2>"$room/why" && return
    IFS= read -r why <"$room/why"
    fail "$(shown "$output") was not made: $(shown "${why:-the tool ended with status $result}")"
}

# ------------------------------------------------------------ text, file

twin() {
    need_python
    trap '' XFSZ
    [ "${files[0]}" != - ] || need_input
    outlet=1
    if [ -n "$output" ]; then
        judge_target
        begin_file
    fi
    tool twin "$verb" "${files[0]}" >&"$outlet" || tool_failed $?
    [ -z "$output" ] || put_in_place
    leave 0
}

tool_failed() {
    [ "$1" -ne 2 ] || exit 2 # it has said why
    fail "$verb did not run to its end (status $1)"
}

# ------------------------------------------------------------ audit

audit() {
    local names missed='' total=() out heard
    folder=${files[0]}
    if [ "$folder" = - ]; then
        open_file -
        names=$opened folder=.
        get_ready
        make_room
    else
        judge_folder
        get_ready
        list_records
    fi
    exec {out}>&1
    exec {served}< <(serve_program)
    heard=$served
    listen
    served=''
    [ ${#total[@]} -eq 0 ] || printf '\r\033[K' >&2
    [ "$said" = "${said//-/}" ] || missed="no link could be laid in ${room:-${TMPDIR:-/tmp}} to a file whose name is not UTF-8, and none was read"
    said=${said//-/}
    [[ $said == [01] ]] || no_answer
    [ -z "$missed" ] || fail "$missed"
    leave "$said"
}

# The program in the folder, and beside it who lays links for it. Nobody else has the pipes between them: so with one the other ends, and
# with both what this shell hears.
serve_program() {
    local told links
    exec {told}>&1 {links}<"${room:-/dev/null}"
    coproc LINKS { lay_links; }
    # opened anew: bash's own ends of these pipes, and copies of them, are closed where the program begins
    cd -- "$folder" && exec "${runner[@]}" "$target/bin/desk" audit "${total[@]}" \
        <&"$names" 3>&1 >&"$out" 8>"/dev/fd/${LINKS[1]}" 9<"/dev/fd/${LINKS[0]}" 10<&"$links"
}

# For each path that comes in, with a 0 byte after it, a link to it in the room, and a byte that goes out: 1, or 0 where no link could be
# laid, of which this shell hears too. The program follows the link: a path goes on from the folder that it is in, whatever that is called.
lay_links() {
    local LC_ALL=C path # a byte is a character, and none takes in the 0 behind it
    while IFS= read -r -d '' path; do
        [[ $path == /* ]] || path=/proc/self/cwd/$path
        if [ -n "$room" ] && ln -sfT -- "$path" "$room/link"; then
            printf 1
        else
            printf - >&"$told"
            printf 0
        fi
    done 2>/dev/null
}

# A pipe makes its reader wait for whoever writes, so an audit that met one could take for ever.
judge_folder() {
    local place found
    place=$(shown "$folder")
    [ -e "$folder" ] || fail "$place: no such folder"
    [ -d "$folder" ] || fail "$place is no folder"
    { [ -r "$folder" ] && [ -x "$folder" ]; } || fail "$place may not be read"
    found=$(cd -- "$folder" && LC_ALL=C find . -xtype p \( -name '*.net' -o -name '*.place' \) -printf '%P.' -quit 2>/dev/null)
    [ -z "$found" ] || fail "$(shown "$folder/${found%.}") is a pipe, and no audit ends that waits for one"
}

# The net files below the folder in the order of their bytes, a 0 byte after each: open as `names`. How many they are goes to `total`
# where a person waits for a file or a pipe to be filled, and is to see how far the program is.
list_records() {
    local why
    need_room
    why=$(cd -- "$folder" && LC_ALL=C find . -name '*.net' ! -type d -printf '%P\0' 2>&1 >"$room/found") ||
        missed="not all below $(shown "$folder") could be listed, and what was not is not in the tally: $(shown "${why%%$'\n'*}")"
    LC_ALL=C sort -z <"$room/found" >"$room/sorted" 2>/dev/null || fail "the list of records could not be written to $room"
    if [ -t 2 ] && [ ! -t 1 ]; then total=("$(tr -cd '\0' <"$room/sorted" | wc -c)"); fi
    exec {names}<"$room/sorted"
}
