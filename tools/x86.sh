# What the tools share to build, run and count programs for x86-64, for which the proved library is built. On x86-64 they run as they are, and
# callgrind counts. On another processor qemu-x86_64 of Debian's qemu-user runs them, its plugin tools/x86.d/count.c counts, and Rust needs its
# libraries for x86-64, x86_64-linux-gnu-gcc and libc6:amd64; RUSTC may name another compiler than cargo's own.

if [ "$(uname -m)" = x86_64 ]; then
    x86_programs=(valgrind)
    x86_release=release
    x86_cargo() { cargo "$@"; }
    x86_run() { "$@"; }
    # Writes the number of instructions that a program takes to a file.
    x86_count() { valgrind --tool=callgrind --callgrind-out-file=/dev/null "${@:2}" 2> "$1.said" && sed -n 's/.*Collected : *//p' "$1.said" > "$1"; }
else
    x86_programs=(qemu-x86_64 x86_64-linux-gnu-gcc cc)
    x86_release=x86_64-unknown-linux-gnu/release
    x86_cargo() { CARGO_TARGET_X86_64_UNKNOWN_LINUX_GNU_LINKER=x86_64-linux-gnu-gcc cargo "$@" --target x86_64-unknown-linux-gnu; }
    x86_run() { qemu-x86_64 "$@"; }
    x86_count() {
        mkdir -p target/x86
        [ target/x86/count.so -nt tools/x86.d/count.c ] || cc -O2 -shared -fPIC tools/x86.d/count.c -o target/x86/count.so
        COUNT_FILE=$1 qemu-x86_64 -plugin target/x86/count.so "${@:2}"
    }
fi
