# shellcheck shell=bash disable=SC2034,SC2154
# Sourced by ./tusuchiy and .ci/host, which set `top`, the repository's folder: installs what builds x86-64 programs, proves the check, builds the command.
program=$top/host/target/tusuchiy
log=$top/host/target/setup.log

# What the command is made from. The archive is made from the crates, unless one lies in TUSUCHIY_ARCHIVE_DIR.
sources=("$top/docs/RULES.md" "$top/.cargo/config.toml" "$top"/host/{,tusuchiy/}Cargo.toml "$top"/host/tusuchiy/{build.rs,src})
if [ -z "${TUSUCHIY_ARCHIVE_DIR:-}" ]; then
    unset TUSUCHIY_ARCHIVE_DIR
    archive=$top/crates/tusuchiy_c/out/libtusuchiy_c.a
    sources+=("$top/crates" "$top/crates.txt")
else
    # Cargo runs in another folder.
    case $TUSUCHIY_ARCHIVE_DIR in /*) ;; *) export TUSUCHIY_ARCHIVE_DIR=$PWD/$TUSUCHIY_ARCHIVE_DIR ;; esac
    archive=$TUSUCHIY_ARCHIVE_DIR/libtusuchiy_c.a
    sources+=("$archive")
fi

# fail WORDS: one line on standard error, and the status of a command that couldn't run.
fail() {
    echo "tusuchiy: $*" >&2
    exit 3
}

# host_newer THAN PATHS: is one of these files, or a file in one of these folders, newer than THAN? What rt makes in a crate's out/ is no source.
host_newer() {
    [ -n "$(find "${@:2}" -type d -name out -prune -o -newer "$1" -type f -print -quit 2>/dev/null)" ]
}

# step WORDS COMMAND: one line on standard error, with the time it took; what the command says goes to the log.
step() {
    local began=$SECONDS ended=0 took
    printf 'tusuchiy: %s .. ' "$1" >&2
    # 9 is the lock: nothing that a step leaves running may hold it.
    "${@:2}" </dev/null >>"$log" 2>&1 9>&- || ended=$?
    took=$((SECONDS - began))
    if [ "$took" -lt 60 ]; then took="$took s"; else took="$((took / 60)) min $((took % 60)) s"; fi
    [ "$ended" = 0 ] || took="failed after $took; what was said stands in $log"
    echo "$took" >&2
    return "$ended"
}

# in_folder FOLDER COMMAND: runs it there.
in_folder() (
    cd "$1" && "${@:2}"
)

# as_root COMMAND: runs it as root, by sudo where that is needed.
as_root() {
    if [ "$(id -u)" = 0 ]; then "$@"; else sudo -n "$@"; fi
}

# apt PACKAGES: Debian packages, from lists that are made new first.
apt() {
    as_root apt-get update -q &&
        as_root env DEBIAN_FRONTEND=noninteractive apt-get install -qy --no-install-recommends "$@"
}

# install PACKAGES: apt, as a step.
install() {
    step "installing $*" apt "$@" || fail "install them as root, then try again"
}

# On x86-64 any cargo from 1.77 on does. Debian's rustc-web is newer than its rustc.
tools_x86_64() {
    command -v cargo >/dev/null && command -v cc >/dev/null && return
    install rustc-web cargo-web gcc libc6-dev
}

# On Arm all that links the archive is built for x86-64 and run under the emulator. The cross compiler only recommends its C library.
# For Arm's own programs rustc-web brings the library and the linker.
tools_arm() {
    if ! { [ -x /usr/bin/cargo ] && command -v x86_64-linux-gnu-gcc && command -v qemu-x86_64 &&
        dpkg -s libstd-rust-web-dev:amd64 libc6-dev-amd64-cross; } >/dev/null 2>&1; then
        step "adding Debian's amd64 packages" as_root dpkg --add-architecture amd64 || fail "add them as root, then try again"
        install rustc-web cargo-web libstd-rust-web-dev:amd64 gcc-x86-64-linux-gnu libc6-dev-amd64-cross qemu-user
    fi
    export PATH="/usr/bin:$PATH" RUSTC=/usr/bin/rustc
    export CARGO_TARGET_X86_64_UNKNOWN_LINUX_GNU_LINKER=x86_64-linux-gnu-gcc
    export CARGO_TARGET_X86_64_UNKNOWN_LINUX_GNU_RUNNER=qemu-x86_64
}

# Debian's packages of crates, where Cargo.toml of the command names some.
crates_debian() {
    local packages
    mapfile -t packages < <(grep -o 'librust-[a-z0-9.+-]*-dev' "$top/host/tusuchiy/Cargo.toml")
    [ "${#packages[@]}" = 0 ] || dpkg -s "${packages[@]}" >/dev/null 2>&1 || install "${packages[@]}"
}

# pin_cargo: where cargo builds, for which machine and with which flags is said here, not by the user's environment or configuration.
pin_cargo() {
    local name
    for name in "${!CARGO_@}" "${!RUSTC@}" RUSTFLAGS; do
        case $name in CARGO_HOME | CARGO_BUILD_JOBS) ;; *) unset "$name" ;; esac
    done
    export CARGO_TARGET_DIR=$top/host/target CARGO_BUILD_TARGET=x86_64-unknown-linux-gnu
    # Set and empty, they stand above what a configuration says.
    export CARGO_ENCODED_RUSTFLAGS='' RUSTC_WRAPPER='' RUSTC_WORKSPACE_WRAPPER=''
}

# host_tools: everything that cargo needs, on either processor; own_target is the processor's own name, for what needs no archive.
host_tools() {
    { mkdir -p "$top/host/target" && : >"$log"; } || fail "can't write in $top/host/target"
    pin_cargo
    case $(uname -m) in
        x86_64) own_target=x86_64-unknown-linux-gnu && tools_x86_64 ;;
        aarch64 | arm64) own_target=aarch64-unknown-linux-gnu && tools_arm ;;
        *) fail "this machine is neither x86-64 nor Arm" ;;
    esac
    crates_debian
}

# proved: is the archive there, and not older than the crates? One in TUSUCHIY_ARCHIVE_DIR is taken as it is.
proved() {
    [ -f "$archive" ] || return
    [ -n "${TUSUCHIY_ARCHIVE_DIR:-}" ] || ! host_newer "$archive" "$top/crates" "$top/crates.txt"
}

# can_prove: is there what makes the archive?
can_prove() {
    [ -z "${TUSUCHIY_ARCHIVE_DIR:-}" ] || fail "there is no $archive, where TUSUCHIY_ARCHIVE_DIR points"
    command -v rt >/dev/null || fail "rt, the command of the Rattle kit, isn't installed: it proves and writes the archive"
}

# host_archive: proves the check and writes the archive.
host_archive() {
    rm -f "$archive"
    # rt lib takes what rt check keeps.
    step "proving the check" in_folder "$top/crates/tusuchiy_c" rt check || exit 3
    step "writing its archive" in_folder "$top/crates/tusuchiy_c" rt lib || exit 3
    [ -f "$archive" ] || fail "rt wrote no $archive; what it said stands in $log"
    touch -r "$begun" "$archive"
}

# host_command: builds the command and puts it in its place. What fails leaves the program before it there.
host_command() {
    local made=$CARGO_TARGET_DIR/$CARGO_BUILD_TARGET/release/tusuchiy
    # Removed first, so that what stands there afterwards was made now.
    rm -f "$made"
    step "building the command" in_folder "$top/host" cargo build --release --offline --package tusuchiy --bin tusuchiy || exit 3
    [ -x "$made" ] || fail "cargo made no $made; what it said stands in $log"
    { cp "$made" "$program.new" && touch -r "$begun" "$program.new" && mv -f "$program.new" "$program"; } ||
        fail "can't write $program"
}

# host_alone: one setup at a time. Whoever comes second waits.
host_alone() {
    exec 9>"$top/host/target/setup.lock" || fail "can't write in $top/host/target"
    command -v flock >/dev/null || return 0
    flock -n 9 && return
    echo "tusuchiy: another setup is under way; waiting for its end" >&2
    flock 9
}

# host_setup [first]: installs, proves and builds what is missing or older than its sources; on first use only where nobody else just has.
host_setup() {
    mkdir -p "$top/host/target" || fail "can't write in $top/host/target"
    host_alone
    if [ "${1-}" != first ] || ! [ -x "$program" ]; then
        # Asked first, so that nothing is installed in vain.
        proved || can_prove
        host_tools
        # Archive and program get the time of the beginning, so that what is edited meanwhile is newer.
        begun=$top/host/target/setup.begun
        : >"$begun" || fail "can't write $begun"
        proved || host_archive
        host_command
    fi
    exec 9>&-
}
