# Completion for bash of sdca; ./install puts it under share/bash-completion/completions.
# Made by tools/completion.py --write from the table of commands.

# NAME: the kinds of its arguments, f for a file and n for a number, and what it does.
declare -gA _sdca_kinds=(
    [accounts]=fff
    [air]=ffff
    [apart]=ffff
    [book]=ffff
    [card]=fnf
    [cover]=ff
    [field]=fff
    [head]=ffff
    [layered]=ffn
    [lcard]=fnnf
    [messages]=ff
    [next]=ffnf
    [opens]=fff
    [plan]=ffnn
    [receive]=fff
    [sample]=nnf
    [show]=f
    [status]=ffn
    [tables]=f
    [trace]=fff
    [trial]=fff
    [twin]=fnf
    [watch]=fff
) _sdca_work=(
    [accounts]='makes the book from the accounts of named subscribers, and reports them'
    [air]='makes OUT, the broadcast of a live clear stream, with a new site'
    [apart]='checks whether two broadcasts may share cards'
    [book]='makes a longer book: its commands, then those of COMMANDS'
    [card]='makes the card of a receiver'
    [cover]='prints the sets of each period'\''s cover'
    [field]='prints what receivers write that miss packets or lose power'
    [head]='makes the scrambled broadcast of a clear stream'
    [layered]='prints the sets of each period'\''s layered cover'
    [lcard]='makes the smaller card of a receiver for layered covers'
    [messages]='prints the messages of a broadcast, one line each'
    [next]='makes the site of the next broadcast: new control words, a new period'
    [opens]='prints which sets of each period the cards of a coalition open'
    [plan]='prints the size of a broadcast on air, before it is made'
    [receive]='writes the clear packets that a card opens, of one broadcast or of several in a row'
    [sample]='makes a clear stream for tests'
    [show]='prints the fields of a card'\''s file, without its keys'
    [status]='prints whether a receiver is entitled, and when that changes'
    [tables]='prints the tables of a stream, one line of JSON each'
    [trace]='prints the receivers whose cards a decoder holds, found by queries'
    [trial]='prints what each receiver writes from a broadcast'
    [twin]='makes the site of a broadcast at the same time: new control words, the same periods'
    [watch]='makes OUT, what the card opens of a stream that may be damaged'
    [help]='prints this list, or a command'\''s arguments, exits and an example'
    [version]='prints the version, and the toolchain that proved it'
)

# TOPIC..: the commands and these words that begin as the word at the cursor. A listing says what each command does.
_sdca_names() {
    local name
    mapfile -t COMPREPLY < <(compgen -W "${!_sdca_kinds[*]} $*" -- "${COMP_WORDS[COMP_CWORD]}" | LC_ALL=C sort)
    # 63, 33 and 64: the words are listed, and none is put into the line
    if ((${#COMPREPLY[@]} > 1)) && [[ $COMP_TYPE == @(63|33|64) ]]; then
        for name in "${!COMPREPLY[@]}"; do
            printf -v "COMPREPLY[name]" '%-9s %s' "${COMPREPLY[name]}" "${_sdca_work[${COMPREPLY[name]}]}"
            COMPREPLY[name]=${COMPREPLY[name]:0:${COLUMNS:-80}-2}
        done
    fi
}

_sdca() {
    local place=$((COMP_CWORD - 2)) word
    COMPREPLY=()
    if ((COMP_CWORD == 1)); then
        _sdca_names help version
    elif [[ ${COMP_WORDS[1]} == @(help|--help|-h) ]]; then
        ((COMP_CWORD > 2)) || _sdca_names
    else
        # to bash a colon or an equals sign within a name is a word of its own, and ends one
        for word in "${COMP_WORDS[@]:2:COMP_CWORD-2}"; do
            [[ $word != [:=]* ]] || ((place -= 2))
        done
        # nothing for a number, nor behind the last argument
        word=${_sdca_kinds[${COMP_WORDS[1]:-help}]-}
        [[ ${word:place < 0 ? 0 : place:1} != f ]] || compopt -o default
    fi
}

complete -F _sdca sdca
