#!/usr/bin/env bash
# Builds and runs the tests of the C and the Rust interface over an archive:
#
#   tests/interface/run.sh FOLDER      FOLDER holds libhurdlesong_c.a, as target/staticlib does once scripts/archive.sh ran
#
# The archive is x86-64. On such a machine the tests run natively, by cc and cargo; on another one by a cross compiler and an emulator, with
# Debian's rustc and cargo, since Rust's std for x86-64 has to be of their version. Taken from the environment, else looked for:
#   CC_X86          the C compiler for x86-64
#   EMULATOR        what runs an x86-64 program
#   RUST_STD_X86    a sysroot folder with Rust's std for x86-64
#   INSTALL=1       as root on Debian: what is missing is installed first, and std is fetched to a folder of its own
#   HURDLESONG_VECTORS   a folder of jobs and texts, which the Rust tests then run too
#
# Status 0: all was run and passed. 1: something failed. 2: wrong use. 3: a part was not run, as a line beginning with SKIPPED says.
set -eu

here=$(cd "$(dirname "$0")" && pwd)
top=$(cd "$here/../.." && pwd)
target=x86_64-unknown-linux-gnu
if [ $# -ne 1 ] || [ ! -f "$1/libhurdlesong_c.a" ]; then
    echo "usage: $0 FOLDER, which holds libhurdlesong_c.a: run scripts/archive.sh first" >&2
    exit 2
fi
archive=$(cd "$1" && pwd)
if [ -n "${HURDLESONG_VECTORS:-}" ]; then
    HURDLESONG_VECTORS=$(cd "$HURDLESONG_VECTORS" && pwd)
    export HURDLESONG_VECTORS
fi
work=$(mktemp -d)
trap 'rm -rf "$work"' EXIT

has() {
    command -v "$1" >/dev/null 2>&1
}

# A program as the Debian package of that name has it: another one may come first on PATH.
debian_file() {
    dpkg -L "$1" 2>/dev/null | grep -x "/usr/bin/$1" || true
}

find_tools() {
    if [ "$(uname -m)" = x86_64 ]; then
        how=natively cc=${CC_X86:-cc} emulator='' cargo=cargo
        compiler_package=gcc libc_package=libc6-dev
        return
    fi
    how='by emulator' cc=${CC_X86:-x86_64-linux-gnu-gcc} emulator=${EMULATOR:-qemu-x86_64}
    compiler_package=gcc-x86-64-linux-gnu libc_package=libc6-dev-amd64-cross
    cargo=$(debian_file cargo) rustc=$(debian_file rustc) std=${RUST_STD_X86:-}
    if [ -z "$std" ] && [ -n "$rustc" ]; then
        std=$("$rustc" --print sysroot)
    fi
}

# The Debian packages that the C program lacks.
missing_for_c() {
    has "$cc" || echo "$compiler_package"
    printf '#include <stdio.h>\nint main(void) { return 0; }\n' | "$cc" -x c - -o "$work/probe" >/dev/null 2>&1 || echo "$libc_package"
    [ "$how" = natively ] || has "$emulator" || echo qemu-user
}

# The Debian packages that the Rust tests lack. They are linked and run by the same tools.
missing_for_rust() {
    missing_for_c
    if [ "$how" = natively ]; then
        has "$cargo" || printf '%s\n' rustc cargo
        return
    fi
    [ -n "$rustc" ] || echo rustc
    [ -n "$cargo" ] || echo cargo
    compgen -G "$std/lib/rustlib/$target/lib/libstd-*.rlib" >/dev/null || echo libstd-rust-dev:amd64
}

# Rust's std for x86-64, of the version of Debian's rustc, without that architecture in the system's lists.
fetch_std() {
    local private=$work/std
    mkdir -p "$private/lists/partial"
    cat > "$private/apt.conf" <<END
APT::Architecture "amd64";
APT::Architectures "amd64";
APT::Sandbox::User "root";
Dir::State::lists "$private/lists";
Dir::Cache::pkgcache "";
Dir::Cache::srcpkgcache "";
END
    (
        cd "$private" && export APT_CONFIG="$private/apt.conf" &&
            apt-get -q update && apt-get -q download "libstd-rust-dev=$(dpkg-query -W -f '${Version}' rustc)" &&
            dpkg -x libstd-rust-dev_*_amd64.deb "$private/std"
    ) && RUST_STD_X86=$private/std/usr
}

install_missing() {
    local packages
    packages=$(missing_for_rust | grep -v '^libstd' || true)
    if [ -n "$packages" ]; then
        # shellcheck disable=SC2086 # one word for each package
        apt-get -q update && DEBIAN_FRONTEND=noninteractive apt-get -q install -y --no-install-recommends $packages || return
        find_tools
    fi
    if missing_for_rust | grep -q '^libstd'; then
        fetch_std || return
        find_tools
    fi
}

run_c() {
    "$cc" -std=c11 -Wall -Wextra -Wpedantic -O2 -I "$top/include" "$here"/*.c "$archive/libhurdlesong_c.a" -o "$work/interface" &&
        $emulator "$work/interface"
}

run_rust() {
    local options=(test --offline --locked --manifest-path "$top/rust/Cargo.toml" --target-dir "$work/rust")
    export HURDLESONG_ARCHIVE=$archive
    if [ "$how" = natively ]; then
        "$cargo" "${options[@]}"
    else
        RUSTC=$rustc RUSTFLAGS="--sysroot $std" CARGO_TARGET_X86_64_UNKNOWN_LINUX_GNU_LINKER=$cc \
            CARGO_TARGET_X86_64_UNKNOWN_LINUX_GNU_RUNNER=$emulator "$cargo" "${options[@]}" --target "$target"
    fi
}

# Runs a part and shows what it printed: part NAME c, or part NAME rust. Sets outcome to run, FAILED or SKIPPED.
part() {
    local missing
    missing=$(missing_for_"$2" | paste -sd ' ')
    if [ -n "$missing" ]; then
        echo "SKIPPED $1: missing are the Debian packages $missing (INSTALL=1 as root installs them)"
        outcome=SKIPPED skipped=yes
        return
    fi
    if run_"$2" >"$work/$2.out" 2>&1; then outcome=run; else outcome=FAILED failed=yes; fi
    cat "$work/$2.out"
}

find_tools
if [ "${INSTALL:-}" = 1 ]; then
    if [ "$(id -u)" != 0 ] || ! has apt-get; then
        echo 'INSTALL=1 needs root and apt-get: nothing is installed'
    else
        install_missing || echo 'not all that is missing could be installed'
    fi
fi
# The emulator looks for x86-64's libraries where the cross compiler has them.
if [ "$how" != natively ] && has "$cc"; then
    export QEMU_LD_PREFIX="${QEMU_LD_PREFIX:-$(dirname "$("$cc" -print-file-name=libc.so.6)")/..}"
fi

skipped=no failed=no
part C c
c=$outcome
if [ "$c" = run ]; then
    c=$(tail -n 1 "$work/c.out" | cut -d , -f 1)
fi
part Rust rust
rust=$outcome
if [ "$rust" = run ]; then
    tests=$(awk '/^test result: ok/ { n += $4 } END { print n + 0 }' "$work/rust.out")
    vectors=$(sed -n 's/.*vectors: \([0-9]*\) run$/\1/p' "$work/rust.out")
    rust="$tests tests with ${vectors:-no} vectors"
    if [ "$tests" = 0 ]; then failed=yes; fi
fi
echo "interface: C $c, Rust $rust, x86-64 $how"
if [ "$failed" = yes ]; then exit 1; fi
if [ "$skipped" = yes ]; then exit 3; fi
