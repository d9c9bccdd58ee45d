# Completion of ccheck and its tools for bash.
_ccheck_words() { mapfile -t COMPREPLY < <(compgen -W "$1" -- "$2"); }

_ccheck_files() {
    compopt -o filenames 2>/dev/null
    mapfile -t COMPREPLY < <(compgen -f -X "!$1" -- "$2"; compgen -d -- "$2")
}

_ccheck_value() {
    case $1 in
    --model) _ccheck_words "lp64 ilp32 llp64" "$2" ;;
    --format) _ccheck_words "text json sarif" "$2" ;;
    --base | --cert | --draws | --report | --input | --back)
        compopt -o filenames 2>/dev/null
        mapfile -t COMPREPLY < <(compgen -f -- "$2") ;;
    --out | --keep) compopt -o filenames 2>/dev/null; mapfile -t COMPREPLY < <(compgen -d -- "$2") ;;
    --tag) _ccheck_words "$_ccheck_rules" "$2" ;;
    --entry | --turns | --steps | --seed | --count | --tries | --seconds | --deny | --printed | --arguments | --text | --since | \
        --jobs | --argument-length | --object-count | --timeout | --drop-attribute | --bin) COMPREPLY=() ;;
    *) return 1 ;;
    esac
}

_ccheck_rules="accfree boolasgn chrsgnext dblfree diverr insufmem intoflow invptr libptr nonnullcs nullref ptrobj
    sizeofptr strmod swtchdflt taintsink uninitref xfree"

_ccheck() {
    local word=${COMP_WORDS[COMP_CWORD]} before=${COMP_WORDS[COMP_CWORD - 1]} options
    COMPREPLY=()
    _ccheck_value "$before" "$word" && return
    case ${COMP_WORDS[0]##*/} in
    ccheck-show)
        if [ "$COMP_CWORD" -eq 1 ]; then
            _ccheck_words "check gate prove verify replay explain --help" "$word"
            return
        elif [ "${COMP_WORDS[1]}" = explain ]; then
            _ccheck_words "$_ccheck_rules" "$word"
            return
        fi
        options="--model --format --entry --turns --base --cert --draws --steps" ;;
    ccheck-html) options="--out --runs --tries --seconds --report --help" ;;
    ccheck-baseline)
        if [ "$COMP_CWORD" -eq 1 ]; then
            _ccheck_words "make shrink move --help" "$word"
            return
        elif [ "$COMP_CWORD" -eq 2 ]; then
            _ccheck_files "*.@(json|sarif)" "$word"
            return
        fi
        options="--report --since --help" ;;
    ccheck-draws) options="--text --input --deny --printed --arguments --back --entry --model --help" ;;
    show-me) options="--tag --tries --seconds --seed --bin --entry --model --help" ;;
    ccheck-cc)
        options="--jobs --format --entry --arguments --argument-length --objects --object-count --drop-volatile
            --drop-attribute --model --turns --timeout --base --keep --replay --steps --draws --help
            -I -D -U -include -isystem -iquote -m32 -std=" ;;
    *)
        if [ "$COMP_CWORD" -eq 1 ]; then
            _ccheck_words "check gate prove verify replay load --help --version" "$word"
            return
        fi
        options="--model --format --entry --turns --base --cert --draws --steps" ;;
    esac
    case $word in
    -*) _ccheck_words "$options" "$word" ;;
    *) _ccheck_files "*.[ch]" "$word" ;;
    esac
}

shopt -s extglob
complete -F _ccheck ccheck ccheck-cc ccheck-show ccheck-html ccheck-baseline ccheck-draws show-me
