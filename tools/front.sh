# What ./fmm, ./fmm_large and ./fmm_live share. They set `here` to the folder of the repository or of the installed package, `name`
# to the name of the program and `crate` to its crate, and call `start` with their arguments.
#
# The program itself replaces this shell, so its status, its output and signals to it are its own. Only a command line that the
# program refuses, and a network above its limits, are handed to the program as a child: then a second line says what to do.

package=$here/python/src/fmm
FMM_PAGE=$here/docs/fmm.1
export FMM_PAGE

say() { printf '%s\n' "$name: $1" >&2; }

# Prints the names of the commands of the Python package.
commands() {
    for file in "$package"/commands/[a-z]*.py; do
        [ -f "$file" ] || continue
        file=${file##*/}
        printf '%s\n' "${file%.py}"
    done
}

# Prints the manual page from SYNOPSIS to EXIT STATUS as plain text, and then the commands of the package. A tag of the page and its
# text share a line.
help() {
    awk '
        /^\.SH/ { shown = /SYNOPSIS/ || shown && !/EXAMPLES/; if (shown) print substr($0, 5); next }
        !shown || /^\.PP/ { next }
        /^\.TP/ { tag = 1; next }
        { sub(/^\.BI? /, ""); gsub(/\\-/, "-"); gsub(/ *"/, " ") }
        tag { printf "  %-13s", $1 " " $2; tag = 0; tagged = 1; next }
        { print (tagged ? "" : "  ") $0; tagged = 0 }' "$FMM_PAGE"
    [ -n "$(commands)" ] || return 0
    echo 'COMMANDS OF THE PYTHON PACKAGE'
    for command in $(commands); do
        printf '  %-13s%s\n' "$command" "$(sed -n '1s/^"""\([^"]*[^".]\).*/\1/p' "$package/commands/$command.py")"
    done
    echo '  fmm NAME --help explains a command.'
}

# Runs a command of the package with a Python that has its libraries: FMM_PYTHON, or the system's, or the first on the path.
run_command() {
    test='import importlib.util as u, sys
names = "geopandas gpxpy numpy osmium pandas pyproj shapely tqdm".split()
sys.exit(sys.version_info < (3, 9) or not all(map(u.find_spec, names)))'
    found=
    for python in ${FMM_PYTHON:+"$FMM_PYTHON"} ${FMM_PYTHON:-/usr/bin/python3 python3}; do
        command -v "$python" >/dev/null || continue
        found=${found:-$python}
        if "$python" -c "$test" 2>/dev/null; then found=$python; break; fi
    done
    if [ -z "$found" ]; then
        say "the command $1 needs Python 3.9 or later; on Debian: apt-get install python3 $(sed -n \
            '/^REQUIRED/,/^}/s/.*: "\(.*\)",/\1/p' "$package/_libraries.py" | tr '\n' ' ' | sed 's/ $//')"
        exit 127
    fi
    PYTHONPATH=$here/python/src${PYTHONPATH:+:$PYTHONPATH} exec "$found" -m fmm "$@"
}

# Calls a function for each file that the words name, with its number (9 for the table) and its path.
each_file() {
    function=$1
    number=0
    state=word
    shift
    case $name:${1-} in fmm_live:*) ;; *:town) return ;; *) shift ;; esac
    for word; do
        case $state:$word in
            value:*) state=word ;;
            table:*) state=word; "$function" 9 "$word" ;;
            word:--) state=literal ;;
            word:--table) state=table ;;
            word:--table=*) "$function" 9 "${word#--table=}" ;;
            word:--*=*) ;;
            word:--*) state=value ;;
            *) number=$((number + 1)); "$function" "$number" "$word" ;;
        esac
    done
}

# Warns of a file that may be cut in its last line.
warn_of_cut() {
    [ -f "$2" ] && [ -n "$(tail -c 1 -- "$2" 2>/dev/null)" ] || return 0
    printf '%s\n' "$name: warning: $2 has no line end after its last line, so it may be cut" >&2
}

# Sets `large` if the network has more edges, nodes or points than fmm takes. Files of less than 500 kB cannot.
look_at_size() {
    [ "$1" = 1 ] && [ -f "$2" ] && [ -r "$2" ] || return 0
    bytes=$(wc -c <"$2")
    [ "$bytes" -gt 500000 ] || return 0
    if [ "$bytes" -gt 134217728 ] || ! awk -F, '
        NR > 150001 { exit 1 }
        NR > 1 { nodes += !($2 in seen); seen[$2]; nodes += !($3 in seen); seen[$3]; points += gsub(/;/, ";") + 1 }
        nodes > 60000 || points > 1000000 { exit 1 }' <"$2"; then large=yes; fi
}

# Runs the program on a network that is too large for it, and then names the program that takes it.
run_large() {
    { said=$("$program" "$@" 2>&1 >&3 3>&-); status=$?; } 3>&1
    [ -z "$said" ] || printf '%s\n' "$said" >&2
    case $status:$said in
        5:*'file too long' | 5:*'too many edges' | 5:*'too many nodes' | 5:*'too many points')
            case $name in
                fmm_live) say 'fmm_large takes larger networks; its commands follow and streams read a pipe too' ;;
                *) say "fmm_large takes larger networks: fmm_large $1 ..; it has the same commands and options" ;;
            esac
            ;;
    esac
    exit "$status"
}

start() {
    case $name:$#:${1-} in
        fmm_live:*:help) usage; exit 0 ;;
        fmm_live:*) ;;
        *:0:) help >&2; exit 2 ;;
        *:help) help; exit 0 ;;
        fmm:*:*[!a-z_]*) ;;
        fmm:*:[a-z]*) [ ! -f "$package/commands/$1.py" ] || run_command "$@" ;;
    esac
    if [ $#:${1-} = 1:--version ]; then
        echo "$name $(cat "$here/VERSION" 2>/dev/null || sed -n 's/^__version__ = "\(.*\)"$/\1/p' "$package/_version.py")"
        exit 0
    fi
    for word; do
        case $word in
            --) break ;;
            --help | -h) usage; exit 0 ;;
        esac
    done
    program=$("$here/tools/build" --path "$crate" </dev/null) || exit 127
    wrong=$(FMM_COMMANDS=$([ "$name" != fmm ] || commands) LC_ALL=C awk -f "$here/tools/words.awk" -- "$name" "$@" 2>/dev/null)
    [ -n "$wrong" ] || case $* in
        *[!\ -~]*) printf '%s\n' "$@" | iconv -f UTF-8 -t UTF-8 >/dev/null 2>&1 ||
            wrong='a word is invalid UTF-8; give the file another name' ;;
    esac
    case $name:$wrong in
        fmm:*' is no command') [ -d "$package" ] || wrong="$wrong; further commands come with the Debian package python3-fmm" ;;
    esac
    if [ -n "$wrong" ]; then
        "$program" "$@"
        status=$?
        [ "$status" != 2 ] || say "$wrong"
        exit "$status"
    fi
    each_file warn_of_cut "$@"
    large=
    [ "$name" = fmm_large ] || each_file look_at_size "$@"
    [ -z "$large" ] || run_large "$@"
    exec "$program" "$@"
}
