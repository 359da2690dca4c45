#!/usr/bin/env bash
# A package of Debian as a kernel. For each NAME, which is a folder beside this script:
#
#     examples/packages/build.sh [WAY] NAME ..
#
# Without a WAY:
#
# 1. apt-get fetches the package's sources, as NAME/recipe says, with lists of its own: the machine's stay as they are.
# 2. gcc compiles all of the package's library for the host, with NAME/main.c and the C library in lib/; ld says which files it
#    takes. This program's output is what the kernel has to print.
# 3. gcc compiles the library to assembler sources, by the flags of ../c/build.sh; lower.awk rewrites what burn doesn't take. pv burns
#    those that the host's link took, with main.c, lib/ and the library of the examples in C, links them and checks the image.
# 4. pv runs the image on the bare machine and patched on a host. Both traces are compared, and the text sent by the serial port
#    with the host's output.
#
# The ways:
#
#   --move     the run is saved twice and goes on on the other machine, bare, patched, bare, and the other way: the joined traces
#              are that of one run
#   --prove    the patched run's choices are stored and replayed, with its trace, and with one in which a byte is changed; the run at
#              level 3 too, where there was one
#   --share    two packages, NAME OTHER, run patched on one host in turns: each has its own trace
#   --refused  what burn refuses of all that gcc writes for the libraries, by number and instruction: with the flags but the last line
#              ('flags'), with lower.awk too ('lowered'), and with all flags and lower.awk ('package')
#   --level3   the package is the program of both tasks of the teaching kernel, examples/c/tasks, at level 3 in address spaces of
#              their own; the timer changes between them
#
# All is done in out/NAME: source, image k.img, traces bare and wedge, console, and row, the line of README.md's table. It wants
# gcc, binutils, time and Python 3 beside apt; nothing is installed. The program is ../../pv, or $PV; the mirror is $MIRROR.
here=$(cd "$(dirname "${BASH_SOURCE[0]}")" && pwd) || exit 2
top=$here/../..
pv=$(realpath "${PV:-$top/pv}")
kernels=$(realpath "$here/../c/lib")
flags=$("$here/../c/build.sh" --flags) || exit 2
script=$(realpath "$here/../none.script")
frames=8192
way=run
case ${1:-} in --move | --prove | --share | --level3 | --refused) way=${1#--}; shift ;; esac
[ $# -gt 0 ] || { echo "usage: build.sh [--move | --prove | --share | --level3 | --refused] NAME .." >&2; exit 2; }

headers=(-nostdinc -isystem "$(gcc -print-file-name=include)" -I "$here/lib/include" -I "$here/lib" -I "$kernels")
# The host counts fractions by its processor, in the same precision.
native=(-m32 -O2 -march=i686 -msse2 -mfpmath=sse -ffp-contract=off -ffreestanding -fno-pic -fno-pie -fno-stack-protector
    -fno-asynchronous-unwind-tables -fcf-protection=none -fno-tree-loop-distribute-patterns -w)
# Attributes of symbols become directives that burn doesn't know.
attributes=('-Dvisibility(x)=' '-D__visibility__(x)=' -w)
machine=($flags "${attributes[@]}")

# The upstream part of the source package, at the version of the recipe, or else at the one that the mirror has; found says which.
fetch() {
    [ ! -d "$source" ] || return 0
    local lists=$here/out/apt options
    mkdir -p "$lists/partial" "$room/fetched" || return
    echo "deb-src ${MIRROR:-http://deb.debian.org/debian} bookworm main" >"$here/out/sources.list"
    options=(-qq -o Dir::Etc::sourcelist="$here/out/sources.list" -o Dir::Etc::sourceparts=- -o Dir::State::lists="$lists" -o APT::Sandbox::User=)
    [ -n "$(find "$lists" -name '*Sources*')" ] || apt-get "${options[@]}" update || return
    cd "$room/fetched" || return
    if apt-get "${options[@]}" --tar-only source "$package=$version"; then
        echo "$version" >"$room/found"
    else
        apt-get "${options[@]}" --tar-only source "$package" && echo "other than $version" >"$room/found" || return
    fi
    mkdir "$room/unpacked" && tar xf "$room"/fetched/*.orig.tar.* --strip-components=1 -C "$room/unpacked" && mv "$room/unpacked" "$source"
}

word() { # name, number
    printf '\t.globl %s\n\t.balign 4\n%s:\n\t.long %d\n' "$1" "$1" "$2"
}

# The bytes of a file as data of a kernel: NAME, and NAME_size.
embed() { # name, file
    printf '\t.section .rodata\n\t.globl %s\n\t.balign 4\n%s:\n' "$1" "$1"
    od -An -v -tu1 -w32 "$2" | sed 's/^ */\t.byte /; s/  */,/g; s/^\t.byte,/\t.byte /'
    word "$1_size" "$(stat -c %s "$2")"
}

# A name of its own for each file of the library.
named() { # path
    local name=${1//\//__}
    echo "${name%.c}"
}

# Whether a file is newer than all others that are named, and than the recipe.
is_current() { # made, made of ..
    local made=$1 file
    for file in "$folder/recipe" "${@:2}"; do
        [ "$made" -nt "$file" ] || return
    done
}

# All of the library for the host, as an archive; the program; and in used the files of the library that it took.
compile_natively() {
    local file objects=()
    mkdir -p "$room/native" || return
    for file in "${library[@]}"; do
        objects+=("$room/native/$(named "$file").o")
        is_current "${objects[-1]}" "$file" || gcc "${native[@]}" "${options[@]}" "${headers[@]}" -c "$file" -o "${objects[-1]}" || return
    done
    rm -f "$room/native/library.a" && ar rcs "$room/native/library.a" "${objects[@]}" || return
    objects=()
    for file in "$folder/main.c" "$kernels/k.c" "$here"/lib/{memory,stdio,stdlib,string,native}.c; do
        gcc "${native[@]}" "${options[@]}" "${headers[@]}" -c "$file" -o "$room/native/$(basename "$file" .c).own.o" || return
        objects+=("$room/native/$(basename "$file" .c).own.o")
    done
    for file in "$here/lib/native_start.s" "$room/data.s"; do
        [ ! -e "$file" ] || { as --32 "$file" -o "$room/native/$(basename "$file" .s).own.o" && objects+=("$room/native/$(basename "$file" .s).own.o"); } || return
    done
    ld -m elf_i386 -z noexecstack -t -t -o "$room/program" "${objects[@]}" "$room/native/library.a" >"$room/native/linked" || return
    used=()
    for file in "${library[@]}"; do
        ! grep -q "[)]$(named "$file")\.o\$" "$room/native/linked" || used+=("$file")
    done
    "$room/program" >"$room/expected"
}

lower() { # C file, assembler file
    # GCC notes each pass that the flags leave out
    gcc "${machine[@]}" "${options[@]}" "${headers[@]}" -S "$1" -o "$room/as.gcc" 2>"$room/said" || { cat "$room/said" >&2; return 1; }
    awk -f "$kernels/lower.awk" "$room/as.gcc" >"$2"
}

burn() { # assembler file
    local object=$room/objects/$(basename "$1" .s).o
    "$pv" burn "$1" "$object" >"$room/said" || { echo "$name: burn $1: $(cat "$room/said")"; return 1; }
    objects+=("$object")
}

# The kernel: its beginning, the package, main, the C library.
build() {
    local file made objects=()
    mkdir -p "$room/package" "$room/own" "$room/objects" || return
    burn "$kernels/start.s" || return
    for file in "${library[@]}"; do
        made=$room/package/$(named "$file").s
        is_current "$made" "$file" "$here/../c/build.sh" "$kernels/lower.awk" || lower "$file" "$made" || return
    done
    for file in "${used[@]}"; do
        burn "$room/package/$(named "$file").s" || return
    done
    for file in "$folder/main.c" "$kernels"/{k,console}.c "$here"/lib/{memory,stdio,stdlib,string,soft_double,machine}.c; do
        made=$room/own/own.$(basename "$file" .c).s
        lower "$file" "$made" && burn "$made" || return
    done
    [ ! -e "$room/data.s" ] || burn "$room/data.s" || return
    "$pv" link "$room/k.img" "${objects[@]}" && "$pv" check "$room/k.img"
}

# The text that a trace sent by the serial port.
console() {
    LC_ALL=C awk 'function digit(c) { return index("0123456789abcdef", c) - 1 }
        $2 == "tx" { printf "%c", 16 * digit(substr($3, 1, 1)) + digit(substr($3, 2, 1)) }' "$1"
}

# Both runs. Behind the last item the processor is halted, up to the bound.
run() {
    local which
    for which in bare wedge; do
        /usr/bin/time -f '%U s, %M KB' -o "$room/$which.time" "$pv" run "--$which" "$room/k.img" "$script" "$frames" "$steps" >"$room/$which" ||
            { echo "$name: run --$which: status $?: $(tail -n 1 "$room/$which")"; return 1; }
        console "$room/$which" >"$room/console"
        cmp "$room/console" "$room/expected" || return
    done
    cmp "$room/bare" "$room/wedge" || return
    functions=$("$here/refused.py" "$pv" "$room"/package/*.s | tail -n 1)
    echo "| $name | $package $(cat "$room/found") | $functions | $(count_of "$room/bare") | $about | yes | $(cat "$room/bare.time") | $(cat "$room/wedge.time") |" >"$room/row"
    echo "$name: $(wc -c <"$room/expected") bytes printed in $(count_of "$room/bare") steps, the same natively and on both machines; bare $(cat "$room/bare.time"); patched $(cat "$room/wedge.time")"
}

# How many steps there are up to the last item of a trace.
count_of() { # trace
    local last
    last=$(tail -n 2 "$1" | head -n 1)
    echo "$((${last%% *} + 1))"
}

# Items without the last line, which tells how the part ended.
items() {
    sed '$d' "$1"
}

move() {
    local one other last=$(($(count_of "$room/bare") / 3))
    for one in bare wedge; do
        other=wedge
        [ $one = bare ] || other=bare
        "$pv" save "--$one" "$room/k.img" "$script" "$frames" "$last" "$room/first" >"$room/part1" &&
            "$pv" save "--$other" "$room/k.img" "$script" from "$room/first" $((2 * last)) "$room/second" >"$room/part2" &&
            "$pv" continue "--$one" "$room/k.img" "$script" "$room/second" "$steps" >"$room/part3" || return
        { items "$room/part1"; items "$room/part2"; cat "$room/part3"; } | cmp - "$room/bare" || return
        rm "$room/first" "$room/second" "$room"/part?
        echo "$name: $one, after $last steps $other, after $((2 * last)) steps $one: the trace is that of one run"
    done
}

# The kernel, and the two tasks at level 3 where they have been run.
prove() {
    prove_image k wedge "$steps" || return
    [ ! -e "$room/level3.wedge" ] || prove_image level3 level3.wedge $((3 * steps))
}

prove_image() { # image, trace, bound
    local certificate=$room/certificate said
    "$pv" prove "$room/$1.img" "$script" "$frames" "$3" "$certificate" >"$room/part" || return
    items "$room/part" | cmp - "$room/$2" || return
    echo "$name: $1.img proved: $(tail -n 1 "$room/part"), $(stat -c %s "$certificate") bytes"
    said=$("$pv" replay "$room/$1.img" "$script" "$frames" "$3" "$certificate" "$room/$2")
    [ "$said" = yes ] || { echo "$name: replay says '$said'"; return 1; }
    sed '500s/[0-9a-f]$/x/' "$room/$2" >"$room/part"
    said="yes, with line 500 changed $("$pv" replay "$room/$1.img" "$script" "$frames" "$3" "$certificate" "$room/part")"
    [ "$said" = "yes, with line 500 changed no line 500" ] || { echo "$name: replay says '$said'"; return 1; }
    echo "$name: $1.img replayed: $said"
    rm "$certificate" "$room/part"
}

# Two kernels in a hundred turns each.
share() { # the other's name
    local other=$here/out/$1 i mine theirs
    mine=$(($(count_of "$room/bare") / 99)) theirs=$(($(count_of "$other/bare") / 99))
    for ((i = 0; i < 100; i++)); do
        printf '0 %d\n1 %d\n' "$mine" "$theirs"
    done >"$room/turns"
    "$pv" share "$room/turns" "$frames" "$room/k.img" "$script" "$other/k.img" "$script" >"$room/part" || return
    sed -n 's/^0 //p' "$room/part" | sed '$d' | cmp - <(items "$room/wedge") &&
        sed -n 's/^1 //p' "$room/part" | sed '$d' | cmp - <(items "$other/wedge") || return
    rm "$room/part"
    echo "$name and $1: in 200 turns on one host, each has the trace that it has alone"
}

# The package for level 3: by the same flags and lower.awk, then by GNU's tools, since burn makes a text of level 0. Each source is
# burnt nevertheless, for what it refuses, which would be a stop in the midst of the run; and the fills of GNU as are left out, since
# they hold instructions that the machine hasn't.
compile_for_level3() {
    local file memory_end
    rm -rf "$room/user" && mkdir "$room/user" || return
    for file in "${used[@]}"; do
        user_object "$file" "$(named "$file")" || return
    done
    for file in "$folder/main.c" "$kernels/k.c" "$here"/lib/{memory,stdio,stdlib,string,soft_double,user}.c; do
        user_object "$file" "own.$(basename "$file" .c)" || return
    done
    as --32 "$kernels/../tasks/user_start.s" -o "$room/user/user_start.o" || return
    [ ! -e "$room/data.s" ] || as --32 "$room/data.s" -o "$room/user/data.o" || return
    ld -m elf_i386 -N -z noexecstack -T "$kernels/user.ld" -o "$room/user.elf" "$room"/user/*.o 2>"$room/said" || { cat "$room/said" >&2; return 1; }
    objcopy -O binary -R .bss "$room/user.elf" "$room/user.bin" || return
    memory_end=$(nm "$room/user.elf" | sed -n 's/^\([0-9a-f]*\) . memory_end$/\1/p')
    {
        embed user_image "$room/user.bin"
        word user_memory_size $((0x$memory_end - 0x40000000))
    } >"$room/user/image.s"
}

user_object() { # C file, name
    local at=$room/user/$2
    lower "$1" "$at.s" && "$pv" burn "$at.s" "$at.o" >"$room/said" || { echo "$name: burn $at.s: $(cat "$room/said")"; return 1; }
    sed '/^\t\.p2align/d' "$at.s" | as --32 -o "$at.o" -
}

level3() {
    local file objects=() task which
    options+=(-DHEAP=4194304)
    compile_for_level3 || return
    rm -f "$room"/objects/*
    options+=(-DSTACK_PAGES=32)
    lower "$kernels/../tasks/kernel.c" "$room/user/kernel.s" || return
    for file in "$kernels/../tasks/entry.s" "$room/user/kernel.s" "$room/user/image.s"; do
        burn "$file" || return
    done
    "$pv" link "$room/level3.img" "${objects[@]}" && "$pv" check "$room/level3.img" || return
    for which in bare wedge; do
        /usr/bin/time -f '%U s, %M KB' -o "$room/level3.$which.time" "$pv" run "--$which" "$room/level3.img" "$script" "$frames" $((3 * steps)) >"$room/level3.$which" || return
        console "$room/level3.$which" >"$room/console"
        for task in 0 1; do
            sed -n "s/^$task //p" "$room/console" | cmp - "$room/expected" || return
        done
    done
    cmp "$room/level3.bare" "$room/level3.wedge" || return
    echo "$name: two tasks at level 3, $(count_of "$room/level3.bare") steps, $(grep -c ' irq 20$' "$room/level3.bare") interrupts of the timer; each printed what it does natively, and both machines the same; bare $(cat "$room/level3.bare.time"); patched $(cat "$room/level3.wedge.time")"
}

# Each file of the library by the flags without the last line, which leaves out some of GCC's passes, and that by lower.awk; what
# all flags and lower.awk give is in package.
refused() {
    local file at fewer
    mkdir -p "$room/flags" "$room/lowered" "$room/package" || return
    fewer=($(sed '$d' <<<"$flags"))
    for file in "${library[@]}"; do
        at=$(named "$file").s
        is_current "$room/flags/$at" "$file" "$here/../c/build.sh" ||
            gcc "${fewer[@]}" "${attributes[@]}" "${options[@]}" "${headers[@]}" -S "$file" -o "$room/flags/$at" || return
        awk -f "$kernels/lower.awk" "$room/flags/$at" >"$room/lowered/$at" || return
        is_current "$room/package/$at" "$file" "$here/../c/build.sh" "$kernels/lower.awk" || lower "$file" "$room/package/$at" || return
    done
}

all_of() { # name, and the other of two that share
    name=$1 folder=$here/$1 room=$here/out/$1 source=$here/out/$1/source
    local package version about steps options=() library=() used=() functions
    unset -f prepare
    [ -e "$folder/recipe" ] || { echo "$name: no such package" >&2; return 1; }
    mkdir -p "$room"
    # the patterns of the recipe are meant within the sources, so it is read again there
    . "$folder/recipe" && fetch && cd "$source" && . "$folder/recipe" || return
    [ ! -d "$folder/include" ] || options=("-I$folder/include" "${options[@]}")
    case $way in
    run | level3)
        ! declare -F prepare >/dev/null || prepare || return
        compile_natively || return
        [ "$way" = level3 ] || build || return
        ;;
    esac
    "$way" "${@:2}"
}

# the same date in each program that prints when it was compiled
export SOURCE_DATE_EPOCH=1700000000

result=0
if [ "$way" = share ]; then
    (all_of "$@")
    exit
fi
for name in "$@"; do
    (all_of "$name") || { echo "$name: failed"; result=1; }
done
if [ "$way" = refused ]; then
    for which in flags lowered package; do
        echo "$which:"
        "$here/refused.py" "$pv" $(for name in "$@"; do find "$here/out/$name/$which" -name '*.s'; done)
    done
fi
exit "$result"
