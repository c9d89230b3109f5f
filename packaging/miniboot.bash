# Completion of the words of miniboot, for bash. Made of the text of --help by checks/documents.sh --write.
_miniboot() {
    local word=${COMP_WORDS[COMP_CWORD]} words=()
    COMPREPLY=()
    if [ "$COMP_CWORD" -eq 1 ]; then
        mapfile -t COMPREPLY < <(compgen -W "keygen showkey factory hsskeygen showmaker endorse showorder ordered sign countersign cosign showimage run rehearse cutat chain attach migrate generate verify history audit trust endorsed register enrol devices fleet asm disasm showcode appcode callcode app --help --version" -- "$word")
        return
    fi
    case ${COMP_WORDS[1]} in
    keygen) words=(NOISE KEY PUBLIC) ;;
    showkey) words=(KEY) ;;
    factory) words=(NOISE KEY OWNER CODE IMAGE) ;;
    hsskeygen) words=(NOISE LEVELS KEY PUBLIC) ;;
    showmaker) words=(KEY) ;;
    endorse) words=(KEY ROOT OUT) ;;
    showorder) words=(ORDER) ;;
    ordered) words=(PUBLIC ORDER) ;;
    sign) words=(KEY DRAFT OUT) ;;
    countersign) words=(KEY LAYER ORDER OUT) ;;
    cosign) words=(KEY LAYER ORDER DRAFT OUT) ;;
    showimage) words=(IMAGE) ;;
    run) words=(IMAGE SCRIPT NOISE) ;;
    rehearse) words=(IMAGE SCRIPT NOISE) ;;
    cutat) words=(IMAGE SCRIPT NOISE COUNT FILL) ;;
    chain) words=(IMAGE OUT) ;;
    attach) words=(CHAIN STATEMENT OUT) ;;
    migrate) words=(IMAGE OUT) ;;
    generate) words=(NUMBER ROUNDS IMAGE SCRIPT NOISE) ;;
    verify) words=(ROOT CHAIN KEYNUMBER) ;;
    history) words=(ROOT CHAIN) ;;
    audit) words=(IMAGE ROOT CHAIN KEYNUMBER) ;;
    trust) words=(ROOT CHAIN KEYNUMBER POLICY) ;;
    endorsed) words=(PUBLIC ROOT ENDORSEMENT) ;;
    register) words=(OUT) ;;
    enrol) words=(ROOT REGISTER CHAIN) ;;
    devices) words=(REGISTER) ;;
    fleet) words=(ROOT REGISTER ITEMS) ;;
    asm) words=(TEXT OUT) ;;
    disasm) words=(CODE OUT) ;;
    showcode) words=(CODE) ;;
    appcode) words=(CODE INPUT STEPS) ;;
    callcode) words=(CODE SECRETS INPUT NEXT) ;;
    app) words=(IMAGE LAYER INPUT STEPS) ;;
    esac
    case ${words[COMP_CWORD - 2]-} in
    "") ;;
    LAYER) mapfile -t COMPREPLY < <(compgen -W "2 3" -- "$word") ;;
    FILL | COUNT | KEYNUMBER | LEVELS | NUMBER | ROUNDS | STEPS) ;;
    *) mapfile -t COMPREPLY < <(compgen -f -- "$word") ;;
    esac
}
complete -o filenames -F _miniboot miniboot
