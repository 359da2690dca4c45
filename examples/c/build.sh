#!/usr/bin/env bash
# The whole way from a kernel in C to both traces. For each kernel NAME, which is a folder beside this script, or any other folder:
#
#     examples/c/build.sh [--stored | --keep | --debug] NAME ..
#     examples/c/build.sh --flags
#
# 1. gcc compiles NAME/*.c to assembler sources, with the flags below; lib/k.c and lib/console.c too where a kernel uses them.
#    lib/lower.awk rewrites what burn doesn't take.
# 2. pv burns each source to an object. start.s stands before them where the kernel has no entry.s of its own.
# 3. pv links the objects, checks the image, and runs it on the bare machine and patched on a host.
# 4. What it sent by the serial port is printed, and compared with NAME/console.txt, if it is there; both traces are compared.
#
# A kernel needs no more than its sources. NAME/steps has the number of its steps, which is 1,000,000 without it, or $STEPS, and
# NAME/script what comes from outside. Where something is refused, a run stops, or the console or a trace differs, this is reported,
# what was printed is shown, and the files are kept.
#
# --stored takes the assembler sources that stand here, so that no compiler is needed; --keep puts those that are made here.
# --debug has gcc and as tell lines, types and variables, and makes NAME.elf by tools/symbols, for gdb; the image is the same.
# --flags prints the flags for gcc alone. The program is ../../pv, or $PV. Where $KEEP names a folder, the image, its objects, both
# traces, NAME.elf, and the program of level 3 with its names (NAME.user.elf) are left there.
here=$(cd "$(dirname "${BASH_SOURCE[0]}")" && pwd) || exit 2
pv=${PV:-$here/../../pv}
mode=compile
case ${1:-} in --stored | --keep | --flags | --debug) mode=${1#--}; shift ;; esac
[ $# -gt 0 ] || [ "$mode" = flags ] || { echo "usage: build.sh [--stored | --keep | --debug] NAME .. or build.sh --flags" >&2; exit 2; }

# i386 alone (no CMOV, BSWAP, CMPXCHG); no library, position independence, guards or tables of the stack; no MMX, SSE or x87; no
# calls of memset that are made of loops; no arithmetic of 16 bits, and no aliases of functions. docs/C.md says what each cures.
flags="-m32 -march=i386 -mtune=pentiumpro -O2 -ffreestanding -fno-pic -fno-pie -fno-stack-protector
    -fno-asynchronous-unwind-tables -fcf-protection=none -mno-sse -mno-mmx -msoft-float -fno-tree-loop-distribute-patterns
    -fdisable-rtl-combine -fno-expensive-optimizations -fno-store-merging -fno-ipa-icf"
[ "$mode" != flags ] || { sed 's/^ *//' <<<"$flags"; exit; }
debug=
[ "$mode" != debug ] || { debug=-g; flags="$flags -g"; }

work=$(mktemp -d) || exit 2
kept=
trap '[ -n "$kept" ] || rm -rf "$work"' EXIT

# A source in C to one in assembly. GCC notes each pass that is off: that is no warning.
lowered() { # C file, assembler file
    local status
    (cd "$(dirname "$1")" && gcc $flags -iquote "$here/lib" -S "$(basename "$1")" -o "$work/as.gcc") 2>"$work/notes"
    status=$?
    grep -v ': note: disable pass' "$work/notes" >&2
    [ "$status" = 0 ] && awk -f "$here/lib/lower.awk" "$work/as.gcc" >"$2"
}

# The same, or the one that stands beside it.
compile() { # C file, assembler file
    if [ "$mode" = stored ]; then
        cp "${1%.c}.s" "$2"
    else
        lowered "$1" "$2" && { [ "$mode" != keep ] || cp "$2" "${1%.c}.s"; }
    fi
}

# The program of level 3 as data of the kernel: burn has one text, which level 3 can't fetch from, so this one is assembled and
# linked by GNU's tools for the address at which the kernel maps it, and its bytes go into a source of data. It is burnt before,
# only to see that no line is refused: what no row spells would be stop 1 in the middle of the program. GNU as fills text up
# to an alignment with such bytes (66 90), so the lines that ask for it go.
user_image() { # folder, assembler file
    local source said
    if [ "$mode" = stored ]; then
        cp "$1/image.s" "$2"
        return
    fi
    lowered "$1/user.c" "$work/user.all" && sed '/^\t\.p2align/d' "$work/user.all" >"$work/user.s" || return
    for source in "$1/user_start.s" "$work/user.s"; do
        said=$("$pv" burn "$source" "$work/user.o") || { echo "burn $(basename "$source"): $said: $(sed -n "${said##* }p" "$source")" >&2; return 1; }
    done
    as --32 $debug "$1/user_start.s" -o "$work/user_start.o" && as --32 "$work/user.s" -o "$work/user.o" || return
    ld -m elf_i386 -T "$here/lib/user.ld" "$work/user_start.o" "$work/user.o" -o "$work/user.elf" 2>"$work/ld" || { cat "$work/ld" >&2; return 1; }
    [ -z "${KEEP:-}" ] || cp "$work/user.elf" "$KEEP/$(basename "$1").user.elf"
    objcopy -O binary --set-section-flags .bss=alloc,load,contents "$work/user.elf" "$work/user.bin" || return
    {
        printf '# The bytes of user_start.s and user.c, made by build.sh.\n\t.section .rodata\n\t.globl user_image\n\t.balign 4\nuser_image:\n'
        od -An -v -tu1 -w32 "$work/user.bin" | sed 's/^ */\t.byte /; s/  */,/g; s/^\t.byte,/\t.byte /'
        printf '\t.globl %s\n\t.balign 4\n%s:\n\t.long %d\n' user_image_size user_image_size "$(stat -c %s "$work/user.bin")" \
            user_memory_size user_memory_size "$(stat -c %s "$work/user.bin")"
    } >"$2"
    [ "$mode" != keep ] || cp "$2" "$1/image.s"
}

# The assembler sources of a kernel, in the order of the link.
sources_of() { # folder
    local c
    sources=()
    if [ -e "$1/entry.s" ]; then
        sources+=("$1/entry.s")
    else
        sources+=("$here/lib/start.s")
    fi
    for c in "$1"/*.c; do
        [ "$(basename "$c")" = user.c ] && continue
        compile "$c" "$work/$(basename "$c" .c).s" || return
        sources+=("$work/$(basename "$c" .c).s")
    done
    if [ -e "$1/user.c" ]; then
        user_image "$1" "$work/image.s" || return
        sources+=("$work/image.s")
    fi
    if grep -qE '"(../lib/)?k.h"' "$1"/*.c; then
        for c in k console; do
            compile "$here/lib/$c.c" "$work/$c.s" || return
            sources+=("$work/$c.s")
        done
    fi
}

# The text that a trace sent by the serial port.
console() {
    LC_ALL=C awk 'function digit(c) { return index("0123456789abcdef", c) - 1 }
        $2 == "tx" { printf "%c", 16 * digit(substr($3, 1, 1)) + digit(substr($3, 2, 1)) }' "$1"
}

# Says what is wrong, and has the files kept.
wrong() { # name, text
    echo "$1: $2"
    kept=yes
}

# Burns, links and checks the sources of a kernel.
build() { # name, folder
    local source said
    objects=()
    sources_of "$2" || { wrong "$1" "its sources weren't made"; return 1; }
    for source in "${sources[@]}"; do
        said=$("$pv" burn "$source" "$work/$(basename "$source" .s).o") || {
            wrong "$1" "burn $(basename "$source"): $said"
            [[ $said != *line* ]] || echo "    $(sed -n "${said##* }p" "$source")"
            echo "    tools/refusals $source lists all that burn refuses"
            return 1
        }
        objects+=("$work/$(basename "$source" .s).o")
    done
    said=$("$pv" link "$work/$1.img" "${objects[@]}") || { wrong "$1" "link: $said"; return 1; }
    "$pv" check "$work/$1.img" || { wrong "$1" "check refuses the image"; return 1; }
    [ -z "$debug" ] || "$here/../../tools/symbols" "$work/$1.img" "${objects[@]}" --lines "${sources[@]}" || wrong "$1" "no names"
}

# Runs a kernel on one machine, and reports how it ended where it didn't reach its bound.
run_on() { # machine, name, folder, script, steps
    local trace=$work/$2.$1
    "$pv" run "--$1" "$work/$2.img" "$4" 2048 "$5" >"$trace" || wrong "$2" "run --$1: status $?: $(tail -n 1 "$trace")"
    console "$trace" >"$trace.console"
    [ ! -e "$3/console.txt" ] || cmp -s "$trace.console" "$3/console.txt" || wrong "$2" "run --$1: another console than console.txt"
}

# Where to go on looking.
point_to_files() { # name, script
    local step
    echo "$1: its files are in $work; the objects in their order: $(basename -a "${objects[@]}" | tr '\n' ' ')"
    step=$(sed -n 's/^end steps \([0-9]*\) stop .*/\1/p' "$work/$1.bare" "$work/$1.wedge" | head -n 1)
    [ -z "$step" ] || echo "    docs/TROUBLESHOOTING.md, 'Stops', has what a stop means, and how its instruction is found"
    [ ! -x "$here/../../look" ] || echo "    ./look state $work/$1.img $2 2048 ${step:-N}"
    [ ! -x "$here/../../tools/gdb" ] || echo "    gdb, and in it: target remote | tools/gdb $work/$1.img $2 2048"
}

build_and_run() { # name or folder
    local folder=$here/$1 name objects=() steps=1000000 script=/dev/null machine
    [ -d "$folder" ] || folder=$1
    [ -d "$folder" ] || { echo "$1: there is no such folder"; return 1; }
    name=$(basename "$folder")
    [ ! -e "$folder/steps" ] || steps=$(cat "$folder/steps")
    steps=${STEPS:-$steps}
    [ ! -e "$folder/script" ] || script=$folder/script
    kept=
    build "$name" "$folder" || { echo "$name: its files are in $work"; return 1; }
    for machine in bare wedge; do
        run_on "$machine" "$name" "$folder" "$script" "$steps"
    done
    [ -z "${KEEP:-}" ] || cp "$work/$name.img" "$work/$name.bare" "$work/$name.wedge" "${objects[@]}" ${debug:+"$work/$name.elf"} "$KEEP"
    cat "$work/$name.bare.console"
    cmp -s "$work/$name.bare.console" "$work/$name.wedge.console" || { wrong "$name" "run --wedge sent this:"; cat "$work/$name.wedge.console"; }
    cmp "$work/$name.bare" "$work/$name.wedge" || wrong "$name" "the traces differ"
    [ -z "$kept" ] || { point_to_files "$name" "$script"; return 1; }
    echo "$name: $(($(wc -l <"$work/$name.bare") - 1)) items in $steps steps, the same on both machines"
}

result=0 any=
for name in "$@"; do
    build_and_run "$name" || result=1
    any=$any$kept
done
kept=$any
exit "$result"
