# Completion of avm for bash. Checked against the usage by scripts/check_man.sh.
_avm() {
    local word=${COMP_WORDS[COMP_CWORD]} before=${COMP_WORDS[COMP_CWORD - 1]} options used kept= option
    COMPREPLY=()
    if [ "$COMP_CWORD" -eq 1 ]; then
        COMPREPLY=($(compgen -W 'keygen format record list export audit check rebut sample retain view roll enroll widen narrow --help --version' -- "$word"))
        return
    fi
    if [ $((COMP_CWORD % 2)) -eq 1 ]; then
        case $before in
            --height) COMPREPLY=($(compgen -W '5 10 15' -- "$word")) ;;
            --w) COMPREPLY=($(compgen -W '1 2 4 8' -- "$word")) ;;
            --id | --seed | --at | --to | --count | --words | --changes) ;;
            --from) ;;
            *) COMPREPLY=($(compgen -f -- "$word")) ;;
        esac
        return
    fi
    case ${COMP_WORDS[1]} in
        keygen) options='--height --w --id --seed --key --public' ;;
        format) options='--store --key --config --image' ;;
        record) options='--store --key --script --packets --console --auths' ;;
        list) options='--store' ;;
        export) options='--store --from --to --segment' ;;
        audit) options='--segment --image --key --auths --evidence' ;;
        check) options='--key --evidence' ;;
        rebut) options='--store --evidence' ;;
        sample) options='--seed' ;;
        retain) options='--store --into --at' ;;
        view) options='--segment --count --from --words --changes' ;;
        roll) options='--store --key' ;;
        enroll) options='--store --key --public --endorse' ;;
        widen) options='--endorse --auths --out' ;;
        narrow) options='--key --auths --public --out' ;;
        *) options= ;;
    esac
    used=" ${COMP_WORDS[*]:2:COMP_CWORD-2} "
    for option in $options; do
        case $used in *" $option "*) ;; *) kept="$kept $option" ;; esac
    done
    COMPREPLY=($(compgen -W "$kept" -- "$word"))
}
complete -o filenames -F _avm avm ./avm
