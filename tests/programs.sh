# Sourced by tests/run, what it starts, bench/run, the starters and the Makefile: how programs and
# shared libraries are built, and programs started, on this machine. The kit writes code for x86-64.
# There, gcc links the library into a C program, and that runs by itself. Elsewhere, where the machine
# runs the kit by its qemu-x86_64, the kit's own compiler and C library serve, and the headers are
# those that gcc finds.
# shellcheck shell=bash disable=SC2034 # whoever sources this uses them

tools=$(dirname "$(rt doc)")/toolchain
loader=("$tools/lib/ld-linux-x86-64.so.2" --library-path "$tools/lib")

# programs: the proved programs, by the names with which they are started in a clone
programs=(list reason mend catalogue uncatalogue)

# emulator: the word before all others where code for x86-64 is emulated; none where it is not
# start: the words that start a C program which `program` built
# start_list: the words that start a program which `command/build` built, by the kit's own C library
# program OUT WORDS..: compiles and links OUT; WORDS are flags, sources and archives
# shared OUT SONAME ARCHIVE: makes a shared library of all that is in the archive
if [ "$(uname -m)" = x86_64 ]; then
    emulator=()
    start=()
    program() {
        local out=$1
        shift
        gcc "$@" -o "$out"
    }
    shared() {
        gcc -shared -Wl,-soname,"$2" -Wl,-z,defs -Wl,--whole-archive "$3" -Wl,--no-whole-archive -o "$1"
    }
else
    # a processor that does not claim fast string instructions: memset is written with them where it
    # does, and they are the slowest of all when emulated
    emulator=(qemu-x86_64 -cpu qemu64)
    start=("${emulator[@]}" "${loader[@]}")
    mapfile -t headers < <(gcc -xc -E -v - </dev/null 2>&1 |
        sed -n '/starts here/,/^End/s/^ /-isystem/p')
    program() {
        local out=$1 lib=$tools/lib
        shift
        "$tools/bin/clang" --target=x86_64-linux-gnu -nostdinc "${headers[@]}" -fPIE -pie \
            -fuse-ld=lld -nostdlib "$lib"/{Scrt1,crti,crtbeginS}.o "$@" \
            "$lib"/{libc.so.6,libc_nonshared.a,ld-linux-x86-64.so.2,libgcc.a} \
            "$lib"/{crtendS,crtn}.o -o "$out"
    }
    shared() {
        "$tools/bin/clang" --target=x86_64-linux-gnu -shared -fuse-ld=lld -nostdlib -Wl,-soname,"$2" -Wl,-z,defs \
            -Wl,--whole-archive "$3" -Wl,--no-whole-archive "$tools/lib/libc.so.6" -o "$1"
    }
fi
start_list=("${emulator[@]}" "${loader[@]}")
