# What the scripts of the repository share: which crates a program uses, whether what is built is the proved program of today's sources, and
# how a program is run by the proved module. Scripts read it; it is not run by itself.
# They set `top`, the repository's folder, and `caller`, the name in front of each line on standard error.

# The status of a launcher that could not run the program, or whose run was cut off.
UNABLE=70

say() {
    echo "$caller: $*" >&2
}

give_up() {
    say "$*"
    exit $UNABLE
}

# Where the words of a script ask for help: writes the comment at the script's head, and ends.
help_where_asked() {
    case ${1-} in
        --help | -h)
            sed -n '2,/^[^#]/s/^# \{0,1\}//p' "$0"
            exit 0
            ;;
    esac
}

# Whether this is an installed package: its launchers lie with a file that says so, and there are no sources.
is_packaged() {
    [ -f "$top/packaged" ]
}

# Where the proved program lies, and beside it the line of the toolchain that proved it.
program_path() {
    if is_packaged; then
        echo "$top/programs/$1"
    else
        echo "$top/crates/$1/out/$1"
    fi
}

# The line that `rt version` prints; read from its file where that lies beside the command, since asking takes a while.
toolchain_line() {
    local command identity
    command=$(command -v rt) || return 1
    identity=$(dirname "$(dirname "$(readlink -f "$command")")")/KIT-ID
    if [ -r "$identity" ]; then
        cat "$identity"
    else
        rt version
    fi
}

need_toolchain() {
    command -v rt >/dev/null 2>&1 || give_up "there is no Rattle toolchain: the command rt was not found"
}

# The libraries that a crate names in crates.txt.
uses_of() {
    sed -n "s/#.*//; s/^$1\( .*\)\{0,1\}: *//p" "$top/crates.txt"
}

# The crates of this repository that a crate stands on and the crate itself, one a line, each behind those that it uses.
crates_of() {
    awk -v top="$1" '
        { sub(/#.*/, "") }
        /:/ {
            at = index($0, ":")
            split(substr($0, 1, at - 1), words, " ")
            uses[words[1]] = substr($0, at + 1)
        }
        function visit(name,    list, count, i) {
            if (name in seen || !(name in uses)) return
            seen[name] = 1
            count = split(uses[name], list, " ")
            for (i = 1; i <= count; i++) visit(list[i])
            print name
        }
        END { visit(top) }
    ' "$top/crates.txt"
}

# Whether the proved program is there, made by this toolchain, and newer than the list of crates and all its sources. A machine
# that has the program and no toolchain has nothing to compare, and the program is as good as it was.
is_proved() {
    local program crate newer
    program=$(program_path "$1")
    if is_packaged; then
        [ -x "$program" ]
        return
    fi
    [ -x "$program" ] && [ -f "$program.toolchain" ] || return 1
    ! command -v rt >/dev/null 2>&1 || toolchain_line | cmp -s - "$program.toolchain" || return 1
    [ ! "$top/crates.txt" -nt "$program" ] || return 1
    for crate in $(crates_of "$1"); do
        newer=$(find "$top/crates/$crate/src" "$top/crates/$crate/specs" "$top/crates/$crate/proofs" -newer "$program" -print -quit 2>/dev/null)
        [ -z "$newer" ] || return 1
    done
}

# The folder of the proved module for WebAssembly and of the programs over it, and beside the module the sum of the sources that it was made of.
module_path() {
    echo "$top/libraries/javascript/lgp_c_region.wasm"
}

# A sum over the sources of which the module is made.
module_sources() {
    (cd "$top/crates" && find $(crates_of lgp_c_region | sed 's|$|/src|') -type f | LC_ALL=C sort | xargs cat | cksum)
}

# Whether node is there, of a version that runs the module.
has_node() {
    case $(node --version 2>/dev/null) in
        v1[89].* | v[2-9][0-9].* | v[1-9][0-9][0-9].*) ;;
        *) return 1 ;;
    esac
}

# Whether the proved module of today's sources is there, and node, which runs it.
has_module() {
    has_node && [ -f "$(module_path)" ] || return 1
    is_packaged || module_sources | cmp -s - "$(module_path).sources"
}

# Notes that the module that lies there is made of today's sources.
mark_module() {
    module_sources >"$(module_path).sources"
}

# Hands this call over to the program by the module. That takes the place of the shell, so that signals and keys reach it.
run_module() {
    answer_recorded "$@"
    # node takes /dev/null where input or output is closed; there reading and writing fail, as the program's do
    [ -e /dev/fd/0 ] || exec </
    [ -e /dev/fd/1 ] || exec >/dev/full
    [ -e /dev/fd/2 ] || exec 2>/dev/full
    exec node "$top/libraries/javascript/terminal.mjs" "$caller" "$@"
}

# The home page of the project on a line of its own, to go after the version; nothing where neither tools/packages/address nor a package
# names one.
home_line() {
    local home
    home=$(sed -n 's/^home page: *//p' "$top/packaged" "$top/tools/packages/address" 2>/dev/null)
    [ -z "$home" ] || printf '\n%s' "$home"
}

# Where the words of a call ask only for the version: writes that of the native program, and the home page, and ends.
tell_version() {
    local program text
    [ $# -eq 2 ] || return 0
    case $2 in --version | -V) ;; *) return 0 ;; esac
    program=$(program_path "$1")
    text=$("$program" "$2") || exit
    if ! echo "$text$(home_line)" 2>/dev/null; then
        say "the output could not be written"
        exit 2
    fi
    exit 0
}

# Writes what the program writes for words that ask for its help or its version, by the table that the module's programs have too, and ends;
# returns for all other words.
answer_recorded() {
    local last=${!#} command='' text
    if [ "$caller" = lgp_lab ]; then
        case ${1-} in
            -*) ;;
            help) command=${2-} last=--help ;;
            *) command=${1-} ;;
        esac
    fi
    case $last in --help | -h | --version | -V) ;; *) return 0 ;; esac
    text=$(awk -v call="\$ $caller ${command:+$command }$last" '
        /^\$ / { is_it = ($0 == call); next }
        is_it && sub(/^> /, "") { print; found = 1 }
        END { exit !found }
    ' "$(dirname "$(module_path)")/help.txt" 2>/dev/null) || return 0
    case $last in --version | -V) text+=$(home_line) ;; esac
    if ! echo "$text" 2>/dev/null; then
        say "the output could not be written"
        exit 2
    fi
    exit 0
}

# Where neither the proved program nor the module is there: help and version are written as they are kept, and all else ends in a line that
# says what would do it.
give_up_on() {
    local way="with the Rattle toolchain, ./prove $1 builds the native program in half an hour"
    shift
    answer_recorded "$@"
    if is_packaged; then
        give_up "cannot run: install Node.js 18 or later (nodejs.org, or the package nodejs of your system), or open laboratory.html of this package in a browser"
    fi
    has_node || give_up "cannot run: install Node.js 18 or later (nodejs.org, or the package nodejs of your system), or open page/laboratory.html in a browser; $way"
    give_up "cannot run: neither the native program nor the module was made from these sources; $way, and page/make makes the module"
}

# How a program is run: as the proved program, else by the module; `none` where neither is there. For tests CONDUGWA_RUN names one of the two.
way_of() {
    case ${CONDUGWA_RUN-} in
        program | module) echo "$CONDUGWA_RUN" ;;
        '') if is_proved "$1"; then echo program; elif has_module; then echo module; else echo none; fi ;;
        *) give_up "CONDUGWA_RUN may be program or module, and not '$CONDUGWA_RUN'" ;;
    esac
}

# Notes that the program that lies there was proved by this toolchain.
mark_proved() {
    toolchain_line >"$(program_path "$1").toolchain"
}

# A file for a launcher's own use; it is removed when the launcher ends.
scratch=
make_scratch() {
    scratch=$(mktemp -d) || give_up "no temporary folder could be made: $(mktemp -d 2>&1)"
    trap 'rm -rf "$scratch"' EXIT
    trap 'exit 129' HUP
    trap 'exit 130' INT
    trap 'exit 143' TERM
}
