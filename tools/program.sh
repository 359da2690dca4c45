# Runs a program of this repository: the part that ./pv and scripts like it share. Not a command of its own, and not proved.
#
# Such a script sets
#   program  the crate of the program, whose name it has, as pv_main
#   forms    the forms of its words, a line each; none where the program itself says what is wrong with them
#   top      the top of the repository
# and reads this file. Words of no form, and a file that isn't there or can't be read, are reported on standard error. Then the
# program takes the place of this process: what it prints, its status and its signals are its own.
#
# Whether it is out of date is asked twice. The quick test compares the time of the last change (ctime), the size and the inode of
# the program, of each of its sources and of each folder of them with what they were when they were last looked at. It sees each
# change of contents, also one in place, each file that comes, goes or takes another's place, whatever its mtime and wherever the
# clock stands. It doesn't see what leaves these three as they were: a change of the disk beneath the file system, or one more
# store through a mapping (mmap) that wrote to its page just before. Where anything differs, tools/program.py compares contents.
# So a change of times alone costs one slow call, and no build.

out=$top/crates/$program/out
made=$out/$program
name=${program%_main}
newline='
'

# Whether nothing has changed since the program was last found current. LIST has the files, SEEN what stat prints of them.
is_as_seen() {
    [ -x "$made" ] && [ -r "$made.list" ] && [ -r "$made.seen" ] || return 1
    (
        list=$program/out/$program
        CDPATH= cd -- "$top/crates" || return
        set -f
        IFS=$newline
        LC_ALL=C stat -L -c '%.9Z %s %i' $(cat "$list.list") 2>/dev/null | cmp -s - "$list.seen"
    )
}

say() { printf '%s: %s\n' "$name" "$1" >&2; }

# The forms as a reader sees them: all, or those of one command.
usage() { # command or nothing
    local form word line
    local IFS=$newline
    for form in $forms; do
        [ -z "$1" ] || [ "${form%% *}" = "$1" ] || continue
        line="  ./$name"
        IFS=' '
        for word in $form; do
            case $word in
            '(') ;;
            ')'*) line="$line .." ;;
            *) line="$line ${word#+}" ;;
            esac
        done
        printf '%s\n' "$line" >&2
    done
}

# Whether a word is a decimal number in a range, with no sign and no leading zero.
is_number() { # word, least, most
    case $1 in
    0) ;;
    '' | *[!0-9]* | 0*) return 1 ;;
    esac
    [ ${#1} -le 13 ] && [ "$1" -ge "$2" ] && [ "$1" -le "$3" ]
}

# Tests one word by its place in a form, and puts into `wrong` what is wrong with it; the files that are read into `reads`.
judge_word() { # place, word
    case $1 in
    FRAMES) is_number "$2" 2048 16384 || wrong="FRAMES is a number from 2048 to 16384, and not '$2'" ;;
    N) is_number "$2" 0 1099511627776 || wrong="N is a number from 0 to 1099511627776, and not '$2'" ;;
    NUMBER) is_number "$2" 0 4294967295 || wrong="NUMBER is a number from 0 to 4294967295, and not '$2'" ;;
    +*) [ -n "$2" ] || wrong="${1#+} is the name of a file, and not an empty word" ;;
    [A-Z]*)
        [ -n "$2" ] || wrong="$1 is the name of a file, and not an empty word"
        case $2 in *"$newline"*) ;; *) reads=$reads$2$newline ;; esac
        ;;
    *) case "|$1|" in *"|$2|"*) ;; *) wrong="'$2' stands in the place of $1" ;; esac ;;
    esac
}

# Tests all words by one form. `wrong` is empty where they have it, and 'count' where there are too many or too few of them.
judge_form() { # form, words
    local IFS=' ' places= group= most=0 fixed=0 size=0 place form=$1
    shift
    for place in $form; do
        case $place in
        '(') group=' ' ;;
        ')'*) most=${place#)} ;;
        *) if [ -n "$group" ]; then group="$group$place " size=$((size + 1)); else places="$places$place " fixed=$((fixed + 1)); fi ;;
        esac
    done
    wrong=count reads=
    if [ "$size" -gt 0 ]; then
        [ $# -gt "$fixed" ] && [ $# -le $((fixed + most * size)) ] && [ $((($# - fixed) % size)) = 0 ] || return
        while [ "$fixed" -lt $# ]; do places=$places$group fixed=$((fixed + size)); done
    fi
    [ $# = "$fixed" ] || return
    wrong=
    for place in $places; do
        judge_word "$place" "$1"
        [ -z "$wrong" ] || return
        shift
    done
}

# Tests all words by each form, and says what is wrong where they have none.
have_form() { # words
    local IFS=$newline form best=
    [ $# -gt 0 ] || { say "no command is given; ./$name --help prints the forms"; return 1; }
    case $1 in
    -h | --help)
        say "the forms of its words; docs/FORMATS.md, 'Commands', says what each does"
        usage ''
        return 1
        ;;
    esac
    for form in $forms; do
        [ "${form%% *}" = "$1" ] || continue
        judge_form "$form" "$@"
        [ -n "$wrong" ] || return 0
        [ -n "$best" ] && [ "$wrong" = count ] || best=$wrong
    done
    case $best in
    '')
        say "'$1' is no command; ./$name --help prints the forms"
        return 1
        ;;
    count) say "too many words or too few for $1:" ;;
    *) say "$best:" ;;
    esac
    usage "$1"
    return 1
}

# Says of the first file that can't be read why.
look_at_files() {
    local IFS=$newline file
    set -f
    for file in $reads; do
        if [ ! -e "$file" ]; then
            say "$file: there is no such file"
        elif [ -d "$file" ]; then
            say "$file: it is a folder"
        elif [ ! -r "$file" ]; then
            say "$file: it can't be read"
        else
            continue
        fi
        return
    done
}

# The program takes no word that isn't UTF-8.
are_utf8() { # words
    case $* in
    *[!\ -~]*) printf %s "$*" | iconv -f UTF-8 -t UTF-8 >/dev/null 2>&1 || { say "a word isn't UTF-8"; return 1; } ;;
    esac
}

# Words of no form need no program, so it isn't built for them; but with no words at all it is, which is how one builds it.
may_build=yes
if [ -n "$forms" ]; then
    if have_form "$@" && are_utf8 "$@"; then
        look_at_files
    elif [ $# -gt 0 ]; then
        may_build=
    fi
fi
# A closed pipe, and a file past its limit, are answered by the program's status.
trap '' PIPE XFSZ
is_as_seen && exec "$made" "$@"
[ -n "$may_build" ] || exit 2
exec python3 -E -s "$top/tools/program.py" "$name" "$program" "$@"
