# Completions for bash, made by tools/package: commands, options and files. If bash lists several options, their descriptions are
# listed too. The descriptions are those of the manual page.

# Prints each command and its description, with a tab between.
_fmm_commands() {
    printf '%s\n' \
        @COMMANDS@
}

# Prints each command of the Python package and its description, with a tab between.
_fmm_package_commands() {
    printf '%s\n' \
        @PACKAGE_COMMANDS@
}

# Prints each option of a command and its description, with a tab between.
_fmm_options() {
    printf '%s\n' \
        @SHARED_OPTIONS@
    case $1 in
        @OWN_OPTIONS@
    esac
}

# Prints what each argument of a command is.
_fmm_arguments() {
    case $1 in
        @ARGUMENTS@
    esac
}

# _fmm_offer CURRENT USED: offers the lines of standard input that begin with the current word. Words in USED are left out.
_fmm_offer() {
    local line word lines=()
    while IFS= read -r line; do
        word=${line%%$'\t'*}
        [[ $word == "$1"* && $2 != *" $word "* ]] && lines+=("$line")
    done
    if [[ ${#lines[@]} -gt 1 && ${COMP_TYPE:-9} == @(33|63|64) ]]; then
        for line in "${lines[@]}"; do
            printf -v line '%-12s %s' "${line%%$'\t'*}" "${line#*$'\t'}"
            COMPREPLY+=("${line:0:${COLUMNS:-80}-1}")
        done
    else
        COMPREPLY=("${lines[@]%%$'\t'*}")
    fi
}

# _fmm_files CURRENT BEFORE: offers the files whose names begin with the current word, each after the text BEFORE.
_fmm_files() {
    local file
    compopt -o filenames 2>/dev/null
    while IFS= read -r file; do COMPREPLY+=("$2$file"); done < <(compgen -f -- "$1")
}

_fmm() {
    local current=${COMP_WORDS[COMP_CWORD]} command= option= used=' ' only_arguments= word i
    local -a arguments=()
    local -i given=0
    COMPREPLY=()
    [[ ${1##*/} == fmm_live ]] && command=follow
    for ((i = 1; i < COMP_CWORD; i++)); do
        word=${COMP_WORDS[i]}
        if [[ -n $option && $word == '=' ]]; then continue
        elif [[ -n $option ]]; then option=
        elif [[ -n $only_arguments ]]; then given+=1
        elif [[ $word == -- ]]; then only_arguments=yes
        elif [[ $word == --*=* ]]; then used+="${word%%=*} "
        elif [[ $word == --* ]]; then used+="$word " option=$word
        elif [[ -z $command ]]; then command=$word
        else given+=1; fi
    done
    if [[ -n $option && $current == '=' ]]; then current=; fi
    read -ra arguments < <(_fmm_arguments "$command")
    if [[ -z $option && -z $only_arguments && $current == --*=* ]]; then
        option=${current%%=*}
        if [[ " @FILE_OPTIONS@ " == *" $option "* ]]; then _fmm_files "${current#*=}" "$option="; fi
    elif [[ -n $option ]]; then
        if [[ " @FILE_OPTIONS@ " == *" $option "* ]]; then _fmm_files "$current" ''; fi
    elif [[ -z $command ]]; then
        _fmm_offer "$current" "$used" < <(_fmm_commands; [[ ${1##*/} != fmm ]] || _fmm_package_commands; [[ $current != -* ]] || printf -- '--help\tprints the manual\n--version\tprints the version\n')
    elif [[ ${1##*/} == fmm && " @PACKAGE_NAMES@ " == *" $command "* ]]; then _fmm_files "$current" ''
    elif [[ ${#arguments[@]} == 0 ]]; then return
    elif [[ -z $only_arguments && ($current == -* || $given -ge ${#arguments[@]}) ]]; then
        _fmm_offer "$current" "$used" < <(_fmm_options "$command")
    elif [[ ${arguments[given]:-} == file ]]; then
        _fmm_files "$current" ''
    fi
}

complete -F _fmm @PROGRAMS@
