# Completions of controller and script_tool for bash: source this file, or put it where bash-completion looks.
# shellcheck shell=bash

# The words that begin as the present one does.
_ruschoep_words() {
    mapfile -t COMPREPLY < <(compgen -W "$1" -- "${COMP_WORDS[COMP_CWORD]}")
}

_ruschoep_files() {
    mapfile -t COMPREPLY < <(compgen -f -- "${COMP_WORDS[COMP_CWORD]}")
}

_ruschoep_controller() {
    case ${COMP_WORDS[COMP_CWORD - 1]} in
    --cells | --budget | --expect) return ;; # a number
    esac
    case ${COMP_WORDS[COMP_CWORD]} in
    -*) _ruschoep_words "--store --keep-previous --new-script --restore-totals --expect --save-totals --cells --budget
        --check --changes --code --names --json --plot --show --help --version" ;;
    *) _ruschoep_files ;;
    esac
}

_ruschoep_script_tool() {
    if ((COMP_CWORD == 1)); then
        _ruschoep_words "check play assemble list fmt code tune --help --version"
        return
    fi
    case ${COMP_WORDS[COMP_CWORD - 1]} in
    --cells | --budget) return ;; # a number
    esac
    case ${COMP_WORDS[1]}/${COMP_WORDS[COMP_CWORD]} in
    check/-*) _ruschoep_words "--strict --cells" ;;
    play/-*) _ruschoep_words "--trace --cells --budget" ;;
    assemble/-*) _ruschoep_words "--unchecked" ;;
    list/-*) _ruschoep_words "--force" ;;
    *) _ruschoep_files ;;
    esac
}

complete -o filenames -F _ruschoep_controller controller
complete -o filenames -F _ruschoep_script_tool script_tool
