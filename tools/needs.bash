# What the checks need beyond the toolchain. To be sourced, with `caller` set.

missing() {
    echo "$caller: $1 is not there, and could not be installed (Debian package $2)" >&2
    exit 1
}

# Installs a Debian package. A list of packages that could not be fetched, or another installation under way, is often over after a while.
install_package() {
    local pause
    for pause in 0 15 60; do
        sleep "$pause"
        { apt-get update && DEBIAN_FRONTEND=noninteractive apt-get -o DPkg::Lock::Timeout=300 install -y "$1"; } >/dev/null 2>&1 && return
    done
    return 1
}

# needed COMMAND PACKAGE TEST..: installs the Debian package that has a command where a test of that fails, if this is Debian and that can
# be done.
needed() {
    local command=$1 package=$2
    shift 2
    if ! "$@" >/dev/null 2>&1; then
        command -v apt-get >/dev/null 2>&1 || missing "$command" "$package"
        install_package "$package" || missing "$command" "$package"
        "$@" >/dev/null 2>&1 || missing "$command" "$package"
    fi
}

# need COMMAND PACKAGE: a command that is asked for its version, and the package that has it.
need() {
    # shellcheck disable=SC2086 # a command may be several words
    needed "$1" "$2" $1 --version
}

# need_program COMMAND PACKAGE: the same for a command that does not tell its version.
need_program() {
    needed "$1" "$2" command -v "$1"
}
