# Sourced by ./test, ./bench, tests/outside and examples/c: the tools that build and run x86-64 programs on this machine.
#
# The library is compiled for x86-64 alone, so whatever links it is an x86-64 program too. This file sets
#
#   CARGO   cargo, set up so that it builds x86-64 programs, and runs them by `$CARGO run` and `$CARGO test`
#   CC      a C compiler for x86-64 programs
#   RUN     the words to put before an x86-64 program to run it (none on x86-64)
#
# On x86-64 they are the machine's own tools. On Arm they are the distribution's cross compilers and an
# emulator. What is missing is installed if this is Debian and root asks, and else named.
# Times measured under the emulator say nothing.

# Commands, each with the package of Debian that has it, if one has.
TOOLCHAIN_COMMON='rt: make:make cmp:diffutils xxd:xxd setpriv:util-linux pkg-config:pkg-config python3:python3'
TOOLCHAIN_OWN='cargo:cargo rustc:rustc cc:gcc'
# Packages of Debian that are no command of the same name.
TOOLCHAIN_CROSS='cargo rustc libstd-rust-dev:amd64 gcc-x86-64-linux-gnu libc6-dev:amd64 qemu-user'

toolchain_has() { # PACKAGE: whether it is installed
    case $(dpkg-query -W -f '${db:Status-Abbrev}' "$1" 2>/dev/null) in ii*) ;; *) return 1 ;; esac
}

toolchain_installs() { # whether packages can be installed here
    command -v apt-get >/dev/null && command -v dpkg-query >/dev/null && [ "$(id -u)" -eq 0 ]
}

toolchain_install() { # PACKAGE..
    echo "toolchain: installing $*"
    apt-get -q update && DEBIAN_FRONTEND=noninteractive apt-get -q install -y --no-install-recommends "$@"
}

toolchain_lacks() { # COMMAND:PACKAGE..: those whose command is not here
    for toolchain_pair; do
        command -v "${toolchain_pair%%:*}" >/dev/null || echo "$toolchain_pair"
    done
}

# Has every command here, or names those that are not.
toolchain_commands() { # COMMAND:PACKAGE..
    toolchain_missing=$(toolchain_lacks "$@")
    toolchain_packages=$(echo "$toolchain_missing" | cut -s -d: -f2)
    if [ -n "$toolchain_packages" ] && toolchain_installs; then
        # A compiler alone has no headers.
        case $toolchain_packages in *gcc*) toolchain_packages="$toolchain_packages libc6-dev" ;; esac
        # shellcheck disable=SC2086
        toolchain_install $toolchain_packages || true
        toolchain_missing=$(toolchain_lacks "$@")
    fi
    [ -z "$toolchain_missing" ] && return
    echo "toolchain: missing: $(echo "$toolchain_missing" | cut -d: -f1 | paste -sd ' ')"
    return 1
}

# Has the packages of the cross tools here, or names those that are not.
toolchain_cross_packages() {
    toolchain_missing=''
    for toolchain_package in $TOOLCHAIN_CROSS; do
        toolchain_has "$toolchain_package" || toolchain_missing="$toolchain_missing $toolchain_package"
    done
    [ -z "$toolchain_missing" ] && return
    # shellcheck disable=SC2086
    toolchain_installs && dpkg --add-architecture amd64 && toolchain_install $toolchain_missing && return
    echo "toolchain: missing: Debian's packages$toolchain_missing"
    return 1
}

toolchain_cross() {
    # shellcheck disable=SC2086
    toolchain_commands $TOOLCHAIN_COMMON && toolchain_cross_packages || return
    # `-p`: the packages' own, also where another of the name comes first
    CARGO=$(command -pv cargo)
    RUSTC=$(command -pv rustc)
    CC=x86_64-linux-gnu-gcc
    RUN='qemu-x86_64 -L /'
    CARGO_TARGET_X86_64_UNKNOWN_LINUX_GNU_LINKER=$CC
    CARGO_TARGET_X86_64_UNKNOWN_LINUX_GNU_RUNNER=$RUN
    export RUSTC CARGO_TARGET_X86_64_UNKNOWN_LINUX_GNU_LINKER CARGO_TARGET_X86_64_UNKNOWN_LINUX_GNU_RUNNER
}

toolchain_own() {
    # shellcheck disable=SC2086
    toolchain_commands $TOOLCHAIN_COMMON $TOOLCHAIN_OWN || return
    CARGO=cargo CC=cc RUN=''
}

toolchain() {
    case $(uname -m) in
    x86_64) toolchain_own ;;
    aarch64) toolchain_cross ;;
    *) echo "toolchain: no tools for $(uname -m)"; return 1 ;;
    esac || return
    CARGO_BUILD_TARGET=x86_64-unknown-linux-gnu
    CARGO_NET_OFFLINE=true
    export CARGO_BUILD_TARGET CARGO_NET_OFFLINE
    echo "toolchain: $($CARGO --version), $($CC --version | head -n 1)${RUN:+, programs run by $RUN}"
}

toolchain || return
