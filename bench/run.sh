#!/bin/sh
# Counts x86-64 instructions of the library and of the C versions, in one run: ./gxf bench [--qemu]. It needs gcc, python3 and the Rattle toolchain, and valgrind
# on x86-64. With --qemu it counts by a plugin of qemu-user.
set -u
top=$(cd "$(dirname "$0")/.." && pwd -P)
clang=$1
how=${2:-}
out=$top/target/bench
die() { printf 'bench: %s\n' "$*" >&2; exit 2; }

prefix=''
emulator=''
if [ "$(uname -m)" != x86_64 ]; then
    how=--qemu
    prefix=x86_64-linux-gnu-
    emulator=qemu-x86_64
fi
case $how in '') counter=valgrind ;; --qemu) counter=qemu-x86_64 ;; *) die "only --qemu may be said" ;; esac
for tool in "$counter" gcc "${prefix}gcc" "${prefix}nm" python3 "$clang"; do command -v "$tool" >/dev/null || die "no $tool"; done
mkdir -p "$out"

"${prefix}gcc" -std=gnu99 -O2 -Wall -Wextra -c "$top/bench/versions.c" -o "$out/versions-gcc.o" || exit 2
"$clang" --target=x86_64-unknown-linux-gnu -std=gnu99 -O3 -Wall -Wextra -c "$top/bench/versions.c" -o "$out/versions-clang.o" || exit 2
for cc in gcc clang; do
    "${prefix}gcc" -std=gnu99 -O2 -Wall -Wextra -static "$top/bench/count.c" "$out/versions-$cc.o" "$top/crates/count_stream/out/libcount_stream.a" "$top/crates/count_book/out/libcount_book.a" \
        "$top/crates/count_map/out/libcount_map.a" "$top/target/lib/liblumperki.a" -o "$out/count-$cc" || exit 2
done
if [ "$counter" != valgrind ]; then
    # the first version of its plugin interface that this qemu takes; that of Debian 12 takes 1
    for api in 1 2 3 4 5 none; do
        [ $api != none ] || die "this qemu-x86_64 takes no such plugin"
        gcc -std=c99 -O2 -Wall -Wextra -shared -fPIC -DAPI=$api "$top/bench/plugin.c" -o "$out/plugin.so" || exit 2
        qemu-x86_64 -plugin "$out/plugin.so" "$out/count-gcc" 2>&1 | grep -q '^counted 0 in 0$' && break
    done
fi

# Where a function of a program begins and ends.
span() { # PROGRAM FUNCTION
    "${prefix}nm" -S "$out/$1" | awk -v name="$2" '$4 == name { print "0x" $1, "0x" $2 }' | { read -r at size && printf '%d %d\n' "$at" "$((at + size))"; }
}

# The instructions of one call.
count() { # PROGRAM JOB FILE
    if [ "$counter" = valgrind ]; then
        valgrind --tool=callgrind --toggle-collect="$2" --callgrind-out-file=/dev/null "$out/$1" "$2" "$3" 2>&1 >/dev/null | sed -n 's/.*Collected : //p'
    else
        job=$(span "$1" "$2")
        caller=$(span "$1" main)
        qemu-x86_64 -plugin "$out/plugin.so,entry=${job% *},from=${caller% *},to=${caller#* }" "$out/$1" "$2" "$3" 2>&1 >/dev/null | sed -n 's/^counted \([0-9]*\) in 1$/\1/p'
    fi
}

# What a job says, and last the stack that it used. Library and C version must answer alike; the library's stack is kept.
answer() { # JOB FILE
    lib=$($emulator "$out/count-gcc" "gxf_$1" "$2" stack)
    for cc in gcc clang; do
        ref=$($emulator "$out/count-$cc" "c_$1" "$2" stack)
        [ -n "$lib" ] && [ "${lib% *}" = "${ref% *}" ] || die "$1 on $2: the library says ${lib% *}, the C version by $cc ${ref% *}"
    done
}

# A line of the table.
row() { # JOB FILE UNITS LABEL
    answer "$1" "$2"
    a=$(count count-gcc "gxf_$1" "$2")
    b=$(count count-gcc "c_$1" "$2")
    c=$(count count-clang "c_$1" "$2")
    [ -n "$a" ] && [ -n "$b" ] && [ -n "$c" ] || die "$1 on $2: nothing was counted"
    awk -v job="$1" -v label="$4" -v n="$3" -v a="$a" -v b="$b" -v c="$c" -v stack="${lib##* }" 'BEGIN {
        printf "| %s | %s | %.1f | %.1f | %.1f | %.2f | %.2f | %d |\n", job, label, a / n, b / n, c / n, a / b, a / c, stack }'
}

# The four lines of a stream and its book.
rows() { # FILE PACKETS MEDIA LABEL
    row check "$1" "$2" "$4"
    row seek "$1" "$2" "$4"
    row build "$1" "$3" "$4"
    row lookup "$1.book" "$3" "$4"
}

# A line of the second table: a refused call.
refused() { # JOB FILE LABEL
    answer "$1" "$2"
    set -- "$1" "$3" $lib
    [ "$3" != 0 ] || die "$1, $2: not refused"
    said="$3 at $4"
    [ "$3" != 5 ] || said="$said, $5 bytes lack"
    echo "| $1 | $2 | $said | ${lib##* } |"
}

make() { python3 "$top/bench/inputs.py" "$@"; }

echo "| Job | Input | Library | gcc -O2 | clang -O3 | to gcc | to clang | Stack |"
echo "|---|---|---|---|---|---|---|---|"
for shape in "200 0" "2000 0" "20000 0" "20000 1000" "14145 0"; do
    set -- $shape
    file=$out/stream-$1-$2.gxf
    media=$(make stream "$file" "$1" "$2")
    label="$1 packets"
    [ "$2" = 0 ] || label="$label, $2 bytes more in each"
    rows "$file" "$1" "$media" "$label"
done
file=$out/progressive-14145.gxf
media=$(make progressive "$file" 14145)
rows "$file" 14145 "$media" "14145 packets, each of two fields"
for tracks in 1 16 48; do
    file=$out/map-$tracks.gxf
    make map "$file" "$tracks"
    label="a map of $tracks tracks"
    [ "$tracks" != 1 ] || label="a map of 1 track"
    row map "$file" 1 "$label"
done

make cut "$out/cut.gxf" "$out/stream-20000-1000.gxf"
make bad-map "$out/bad-map.gxf" 48
make bad-book "$out/bad.book" "$out/stream-20000-0.gxf.book"
echo
echo "| Job | Refused | Answer | Stack |"
echo "|---|---|---|---|"
for job in check seek build; do
    refused $job "$out/cut.gxf" "a stream of 20000 packets, cut in the middle"
done
for job in map check seek build; do
    refused $job "$out/bad-map.gxf" "a map of 48 tracks whose last item has another size"
done
refused lookup "$out/bad.book" "a book whose last record has another mark"
