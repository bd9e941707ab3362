# For the scripts in tools/ and speed/ to source: what is missing is told in words, and `here` is the repository. Their names stand before the words.
here=$(cd "$(dirname "$0")/.." && pwd)

fail() { # WORDS
    folder=$(cd "$(dirname "$0")" && pwd)
    echo "${folder##*/}/${0##*/}: $1" >&2
    exit 1
}

where_from() { # COMMAND
    case $1 in
        nm | size | objcopy) echo 'in Debian it is in binutils' ;;
        gcc | valgrind) echo "in Debian it is in $1" ;;
        qemu-x86_64) echo 'in Debian it is in qemu-user' ;;
        aarch64-linux-gnu-gcc) echo 'in Debian it is in gcc-aarch64-linux-gnu, with its C library in libc6-dev-arm64-cross' ;;
        riscv64-linux-gnu-gcc) echo 'in Debian it is in gcc-riscv64-linux-gnu, with its C library in libc6-dev-riscv64-cross' ;;
        *) echo 'tools/setup installs it or says where to get it' ;;
    esac
}

need_command() { # NAME..
    for name; do
        command -v "$name" >/dev/null || fail "there is no $name on the path; $(where_from "$name")"
    done
}

need_file() { # FILE, and the command that makes it; the file as seen from the repository
    [ -e "$here/$1" ] || fail "there is no $1; \`$2\` makes it"
}

# Sets kit, the folder of the Rattle kit, and toolchain, its compiler with a loader and a C library.
need_kit() {
    need_command rt
    kit=$(cd "$(dirname "$(readlink -f "$(command -v rt)")")/.." && pwd)
    toolchain=$kit/toolchain
    [ -d "$toolchain" ] || fail "the Rattle kit in $kit has no folder toolchain"
}

# The library and the listing program where `rt` leaves them, with what makes them. The library's code is for every x86-64; with no --cpu it is for x86-64-v2.
library=crates/mondgurt/out/libmondgurt.a
library_by='cd crates/mondgurt && rt lib --cpu x86-64'
listing=crates/list/out/list
listing_by='cd crates/list && rt run </dev/null'

# What tools/archive makes, with a line for each.
targets() {
    cat <<'END'
x86_64-linux   Linux on x86-64: what `rt lib --cpu x86-64` writes in crates/mondgurt, byte for byte
x86_64-none    x86-64 without an operating system, and without a red zone
aarch64-linux  Linux on 64-bit Arm
aarch64-none   64-bit Arm without an operating system; no access is unaligned
riscv64-linux  Linux on 64-bit RISC-V, rv64gc and lp64d
riscv64-none   64-bit RISC-V without an operating system, rv64gc and lp64d
END
}

is_target() { # NAME
    targets | cut -d ' ' -f 1 | grep -Fqx -e "$1"
}

need_target() { # NAME..
    for name; do
        is_target "$name" || fail "there is no target $name; tools/archive lists them"
    done
}
