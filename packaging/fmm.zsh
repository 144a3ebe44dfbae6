#compdef @PROGRAMS@
# Completions for zsh, made by tools/package: commands, options with their descriptions, ranges of numbers, and files. The
# descriptions are those of the manual page.

# _fmm_words COMMAND: completes the options and arguments of a command.
_fmm_words() {
    local -a options=(
        @SHARED_OPTIONS@
    )
    case $1 in
        @COMMANDS_WORDS@
        @PACKAGE_NAMES@) _files ;;
    esac
}

_fmm() {
    local -a commands=(
        @COMMANDS@
    )
    [[ $service != fmm ]] || commands+=(
        @PACKAGE_COMMANDS@
    )
    case $service in
        fmm_live) _fmm_words follow ;;
        *)
            if (( CURRENT == 2 )) && [[ $words[2] == -* ]]; then _arguments '--help[print the manual]' '--version[print the version]'
            elif (( CURRENT == 2 )); then _describe -t commands command commands
            else
                local command=$words[2]
                shift words
                (( CURRENT-- ))
                _fmm_words $command
            fi
            ;;
    esac
}

_fmm "$@"
