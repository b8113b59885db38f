# What the commands share; check, explain, lesson, watch, install and examples/make read it. `root` is the folder with the README.
# Messages go to standard error under the command's name. Trouble ends a command with status 3. Standard input is left
# to the command.
# shellcheck shell=bash

: "${root:?}"
name=${0##*/}
crates=$root/crates

say() {
    printf '%s: %s\n' "$name" "$*" >&2
}

trouble() {
    say "$@"
    exit 3
}

# A folder for this run alone.
room=$(mktemp -d) || trouble "there is no room for temporary files"
trap 'rm -rf -- "$room"' EXIT

# The crates that programs are made of, one to a line: their own, and what these use of the crates that crates.txt lists.
# Each comes behind those that it uses, in the order in which rt proves them.
crates_of() { # CRATE..
    awk -F: -v programs="$*" '
        function visit(crate,   n, i, used) {
            if (!(crate in uses) || seen[crate]++) return
            n = split(uses[crate], used, " ")
            for (i = 1; i <= n; i++) visit(used[i])
            print crate
        }
        /^[a-z]/ { split($1, word, " "); uses[word[1]] = $2 }
        END { count = split(programs, named, " "); for (k = 1; k <= count; k++) visit(named[k]) }' "$root/crates.txt"
}

# What rt makes of a crate: the archive of a static library, or a program.
file_of() { # CRATE
    if [ "$1" = scene_log ]; then echo "$crates/$1/out/lib$1.a"; else echo "$crates/$1/out/$1"; fi
}

# Whether something that a crate is made of is newer than a file, or the file is missing. What rt writes, in out/, does not count.
is_older() { # FILE CRATE..
    [ ! -f "$1" ] || [ "$root/crates.txt" -nt "$1" ] ||
        (cd "$crates" && [ -n "$(find "${@:2}" -name out -prune -o -path '*/*' -newer "$1" -print -quit)" ])
}

# The file is there once the crate is proved.
is_built() { # CRATE
    local used
    mapfile -t used < <(crates_of "$1")
    ! is_older "$(file_of "$1")" "${used[@]}"
}

# Says each crate as it is proved: rt names it, and says then what its proof came to. Crates that were proved before are left out.
progress() { # CRATE..
    local line crate='' begun=$SECONDS at all
    mapfile -t all < <(crates_of "$@")
    while IFS= read -r line; do
        [[ ! $line =~ ^crate\ ([A-Za-z0-9_]+): ]] || crate=${BASH_REMATCH[1]}
        [[ $crate && $line = logic=proved* ]] || continue
        for at in "${!all[@]}"; do
            [ "${all[at]}" != "$crate" ] || say "$((at + 1)) of ${#all[@]}: $crate, $((SECONDS - begun)) s"
        done
        crate='' begun=$SECONDS
    done
}

# Those of them that are to be proved, as far as times tell: never proved, changed since, or using one of these. rt leaves a
# stamp of a library that it proved.
to_prove() { # CRATE..
    local crate stamp uses used again left=' '
    for crate in $(crates_of "$@"); do
        stamp=$crates/$crate/out/rlib/stamp again=''
        [ ! -e "$crates/$crate/src/main.rt" ] || stamp=$crates/$crate/out/$crate.stamp
        ! is_older "$stamp" "$crate" || again=$crate
        read -ra uses < <(sed -nE "s/^$crate( [^:]*)?://p" "$root/crates.txt")
        for used in "${uses[@]}"; do
            [[ $left != *" $used "* ]] || again=$used
        done
        [ -z "$again" ] || left+="$crate "
    done
    echo "$left"
}

# Whether a program prints what the file stdout of its crate has, on the crate's other files. `rt ci` tries it so too.
is_right() { # PROGRAM
    local crate=$crates/$1 words=()
    rm -rf "$room/data" && mkdir "$room/data" || trouble "there is no room for temporary files"
    [ ! -e "$crate/data" ] || cp -r "$crate/data/." "$room/data" || trouble "there is no room for temporary files"
    [ ! -e "$crate/args" ] || mapfile -t words <"$crate/args"
    (cd "$room/data" && "$crate/out/$1" "${words[@]}") <"$crate/stdin" 2>"$room/said" | cmp -s - "$crate/stdout"
}

# Proves and builds those of the crates whose files are missing or older than their sources. A crate that is proved stays so,
# so that a run which was broken off is gone on with. rt builds a program when it runs it, here on no input; then it is tried on
# what its crate says that it prints. The estimate: two processors prove about 400,000 bytes of sources a minute.
build() { # CRATE..
    local crate named all left bytes missing=()
    for crate; do
        is_built "$crate" || missing+=("$crate")
    done
    [ ${#missing[@]} -gt 0 ] || return 0
    named=${missing[*]} named=${named// / and }
    command -v rt >/dev/null 2>&1 || trouble "the Rattle toolchain is not installed: 'rt' is not on the PATH"
    all=$(crates_of "${missing[@]}" | wc -l)
    read -ra left < <(to_prove "${missing[@]}")
    bytes=$(find "$root/crates.txt" "${left[@]/#/$crates/}" \( -name must-fail -o -name out \) -prune -o -type f -exec cat {} + | wc -c)
    say "proving and building $named: $all crates, ${#left[@]} to be proved, about $((bytes / 400000 + 1)) min"
    if ! make_all "${missing[@]}" 2>&1 </dev/null | tee "$room/rt" | progress "${missing[@]}"; then
        tail -n 20 "$room/rt" >&2
        trouble "$named could not be built; the lines above say why"
    fi
    for crate in "${missing[@]}"; do
        if [ "$crate" != scene_log ] && ! is_right "$crate"; then
            rm -f "$(file_of "$crate")"
            trouble "$crate does not print what crates/$crate/stdout has"
        fi
        touch -c "$(file_of "$crate")"
    done
}

make_all() { # CRATE..
    local crate
    for crate; do
        if [ "$crate" = scene_log ]; then
            (cd "$crates/$crate" && rt lib) || return
        else
            (cd "$crates/$crate" && rt run >/dev/null) || return
        fi
    done
}

# Runs a program that turns a typed rule into a rule file, a rule file into text, or a label into its text in the file
# `book` of the room. It runs in the room, and FILE is one there or /dev/null. What it prints is left there as `made`. A refusal
# prints nothing, and says R and a number on standard error: `refused` is this number, or empty.
turn() { # PROGRAM FILE
    refused=''
    if ! (cd "$room" && "$(file_of "$1")" <"$2" >made 2>said); then
        cat "$room/said" >&2
        trouble "$1 ended before its time"
    elif [ ! -s "$room/made" ] && [[ $(cat "$room/said") =~ ^R([0-9]+)$ ]]; then
        refused=${BASH_REMATCH[1]}
    elif [ ! -s "$room/made" ] || [ -s "$room/said" ]; then
        cat "$room/said" >&2
        trouble "$1 left no whole answer"
    fi
}

# Whether a rule is typed. The end of its name says it; with another end, its bytes do, which are in the room: a rule file
# begins with its mark, and no typed rule that is taken begins like that.
is_typed() { # RULE
    case "$1" in
        *.txt) ;;
        *.rul) return 1 ;;
        *) ! printf RUL | cmp -s -n 3 - "$room/given" ;;
    esac
}

# A rule file with its labels in capitals, as one that is made has them. Behind the mark only labels have these bytes.
capitals() { # RULE
    head -c 3 -- "$1" && tail -c +4 -- "$1" | LC_ALL=C tr a-z A-Z
}

# Sees to it that a rule.rul is the rule file made from the rule.txt beside it, small letters in its labels aside. They
# are compared by content: times say too little, since a copy from git writes both in one moment, in any order. Where
# either may be the rule that is meant, nothing is judged.
keep_rule() { # RULE TEXT
    local made="made anew from $2, which is newer"
    ! capitals "$1" 2>/dev/null | cmp -s - "$room/made" || return 0
    [ ! -e "$1" ] || [ "$2" -nt "$1" ] || trouble "$2 says another rule than $1, and is not newer:" \
        "remove the one that is not meant"
    [ -e "$1" ] || made="made from $2"
    if cp -T -- "$room/made" "$1"; then
        say "$1 is $made"
    else
        say "$1 could not be written; the rule is that of $2 all the same"
    fi
}

# Takes the rule of a file; a rule.txt beside a rule.rul is the rule. Builds what `take_from` builds, and leaves what it
# leaves.
take_rule() { # RULE PROGRAM..
    local source=$1
    [ "${1##*/}" != rule.rul ] || [ ! -e "${1%.rul}.txt" ] || source=${1%.rul}.txt
    take_from "$source" "${@:2}"
    [ -n "$refused" ] || [ "$source" = "$1" ] || keep_rule "$1" "$source"
}

# Takes the rule that stands in a file, and builds the programs that are named, and if it is typed the one that reads such
# rules. Leaves in the room the file's bytes as `given`, unless it is a rule file that can't be read, and the rule file as
# rule.rul, unless the rule is typed and refused. `typed` is the file that it is typed in, or empty; `refused` is the
# refusal of a typed rule. The bytes that are copied decide every answer.
take_from() { # FILE PROGRAM..
    local source=$1
    shift
    typed='' refused=''
    rm -f "$room/given" "$room/rule.rul"
    if [ -r "$source" ] && [ ! -d "$source" ]; then
        head -c 4097 -- "$source" >"$room/given" || trouble "$source could not be read"
        ! is_typed "$source" || typed=$source
    elif [[ $source = *.txt ]]; then
        trouble "there is no typed rule $source that can be read"
    fi
    build "$@" ${typed:+rule_from_text}
    if [ -n "$typed" ]; then
        turn rule_from_text given
        [ -n "$refused" ] || cp "$room/made" "$room/rule.rul" || trouble "there is no room for temporary files"
    elif [ -e "$room/given" ]; then
        head -c 600 "$room/given" >"$room/rule.rul" || trouble "there is no room for temporary files"
        hint_of_text "$source"
    fi
}

# Leaves in the room the text of the rule that was taken, as `text`: as it is typed, or of a rule file as text_from_rule
# writes it. Of a rule file that is refused there is none.
take_text() {
    local refused=''
    : >"$room/text"
    if [ -n "$typed" ]; then
        cat -vT "$room/given" | awk 1 >"$room/text"
    elif [ -e "$room/rule.rul" ]; then
        build text_from_rule
        turn text_from_rule rule.rul
        [ -n "$refused" ] || awk 1 "$room/made" >"$room/text"
    fi || trouble "there is no room for temporary files"
}

# Holds a log against a rule with the proved check, which stops behind the first line that fails unless it is given
# `full`. Leaves log and report in the room, beside rule.rul, since the program reads the file rule.rul where it runs.
# The report of a typed rule that is refused is that of a refused rule file.
judge() { # RULE LOG [full]
    { [ -r "$2" ] && [ ! -d "$2" ]; } || trouble "there is no log $2 that can be read"
    take_rule "$1" log_check
    [ -e "$room/given" ] || say "there is no rule file $1 that can be read, which counts as one of no bytes"
    head -c 8192 -- "$2" >"$room/log" || trouble "$2 could not be read"
    if [ -n "$refused" ]; then
        echo "0 R$refused" >"$room/report" || trouble "there is no room for temporary files"
    else
        (cd "$room" && "$(file_of log_check)" "${@:3}" <log >report) || trouble "the check ended before its time"
    fi
    case "$(tail -n 1 "$room/report")$(tail -c 1 "$room/report" | od -An -c)" in
        'T '*'\n' | '0 R'*'\n') ;;
        *) trouble "the check left no whole report" ;;
    esac
}

# Says of a rule file that is text what may have been meant. A rule file has bytes that no text has, those of its version.
hint_of_text() { # RULE
    [ -s "$room/rule.rul" ] && [ "$(LC_ALL=C tr -d '[:print:][:space:]\200-\377' <"$room/rule.rul" | wc -c)" -eq 0 ] || return 0
    say "$1 is text; the name of a typed rule ends in .txt"
}

# The exit status: 0 the last verdict is H or there is none, 1 it is F, 2 a refusal, 3 trouble.
status() {
    [ -e "$room/given" ] || return 3
    awk '/ H$/ { s = 0 } / F$/ { s = 1 } / R[0-9]+$/ { s = 2 } END { exit s }' "$room/report"
}

# A line of text on standard output.
show() {
    printf '%s\n' "$*" || trouble "the output could not be written"
}

# The sentence of docs/REFUSALS.md on a refusal.
refusal() { # NUMBER
    awk -F' [|] ' -v row="| $1" '$1 == row { gsub(/`/, "", $2); print $2; exit }' "$root/docs/REFUSALS.md"
}

# Why a rule that was taken is refused: the list's sentence, and of a typed rule the fault that can't be seen.
why_no_rule() { # REFUSAL [FILE]
    local what='The rule file' cr=''
    if [ -n "$typed" ]; then
        what='The typed rule'
        ! LC_ALL=C grep -qa $'\r$' "$room/given" ||
            cr=' Its lines end in CR LF, as Windows writes them. They must end in LF alone.'
    fi
    echo "${2:-$what} is refused, $1: $(refusal "$1")$cr"
}
