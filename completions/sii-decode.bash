# Completion of sii-decode for bash: source this file, or install it as sii-decode in bash-completion's folder.
# Needs nothing but bash.
_sii_decode() {
    local current=${COMP_WORDS[COMP_CWORD]} previous=${COMP_WORDS[COMP_CWORD - 1]}
    local i word behind='' questions=yes into='' plain=()
    # the words in front of the cursor that are no options
    for ((i = 1; i < COMP_CWORD; i++)); do
        word=${COMP_WORDS[i]}
        if [[ $behind ]]; then
            plain+=("$word")
            continue
        fi
        case $word in
        --)
            behind=yes
            ((${#plain[@]} > 0)) || questions=''
            ;;
        -o) i=$((i + 1)) ;;
        # bash makes three words of --output=FILE
        --output | --index | --into)
            [[ $word != --into ]] || into=yes
            [[ ${COMP_WORDS[i + 1]} == '=' ]] && i=$((i + 2)) || i=$((i + 1))
            ;;
        -?*) ;;
        *) plain+=("$word") ;;
        esac
    done
    COMPREPLY=()
    compopt -o filenames 2>/dev/null
    if [[ ! $behind && $previous == '=' ]]; then
        previous=${COMP_WORDS[COMP_CWORD - 2]}
    elif [[ ! $behind && $current == '=' ]]; then
        current=''
    fi
    if [[ ! $behind && $previous == --into ]]; then
        mapfile -t COMPREPLY < <(compgen -d -- "$current")
        return
    fi
    if [[ ! $behind && ($previous == -o || $previous == --output || $previous == --index) ]]; then
        mapfile -t COMPREPLY < <(compgen -f -- "$current")
        return
    fi
    if [[ ! $behind && $current == -?* ]]; then
        mapfile -t COMPREPLY < <(compgen -W '-o --output --index --into -h --help -V --version --' -- "$current")
        return
    fi
    # behind --into every word is a save
    if [[ $into ]]; then
        mapfile -t COMPREPLY < <(compgen -f -- "$current")
        return
    fi
    if [[ $questions ]] && ((${#plain[@]} == 0)); then
        mapfile -t COMPREPLY < <(
            compgen -W 'info forecast prototypes prototype blocks block fields field index check' -- "$current"
            compgen -f -- "$current"
        )
        return
    fi
    # where the save stands, and of a question that has one more word or not, or an index, the file in front of it
    local save=0 first=0
    [[ ! $questions ]] || case ${plain[0]} in
    info | forecast | prototypes | index) save=1 ;;
    prototype | block | fields) save=2 ;;
    blocks | check) save=2 first=1 ;;
    field) save=3 ;;
    esac
    if ((${#plain[@]} == save || (first && ${#plain[@]} == first))); then
        mapfile -t COMPREPLY < <(compgen -f -- "$current")
    fi
}
complete -F _sii_decode sii-decode
