# Read by the scripts, which may be told otherwise by the environment: this machine's C compiler, and, for what links our archives,
# compilers and an emulator for x86-64. Its CPU is one without the newer moves of strings, which it emulates a byte at a time.
CC=${CC:-gcc} CFLAGS=${CFLAGS:--O2}
case $(uname -m) in
x86_64)
    X86_CC=${X86_CC:-$CC} X86_CFLAGS=${X86_CFLAGS:-$CFLAGS} RUN=${RUN:-}
    RUSTC=${RUSTC:-rustc} RUSTFLAGS=${RUSTFLAGS:--O}
    ;;
*)
    X86_CC=${X86_CC:-x86_64-linux-gnu-gcc} X86_CFLAGS=${X86_CFLAGS:--O2 -static} RUN=${RUN:-qemu-x86_64 -cpu qemu64}
    RUSTC=${RUSTC:-/usr/bin/rustc}
    RUSTFLAGS=${RUSTFLAGS:--O --target x86_64-unknown-linux-gnu -C linker=x86_64-linux-gnu-gcc -C target-feature=+crt-static}
    ;;
esac
export CC CFLAGS X86_CC X86_CFLAGS RUN RUSTC RUSTFLAGS PYTHONDONTWRITEBYTECODE=1
