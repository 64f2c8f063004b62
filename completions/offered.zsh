# Prints what zsh offers for the word at the end of a line: zsh -f completions/offered.zsh LINE
#
# A second shell completes, at a terminal of its own, with this file as what it begins by.
if [[ -z $OFFERED_BY ]]; then
    zmodload zsh/zpty
    export OFFERED_BY=${0:A}
    zpty asked zsh -f -i
    zpty -w asked "source ${(q)OFFERED_BY}"
    zpty -r asked seen '*ready*'
    zpty -w -n asked "$1"$'\t'
    zpty -r asked seen '*>>>*'
    seen=${${${seen#*<<<}%%>>>*}//$'\r'/}
    zpty -d asked
    print -rl -- ${(fu)seen}
    exit
fi

PS1= PROMPT= RPROMPT=
fpath=(${OFFERED_BY:h} $fpath)
autoload -Uz compinit
compinit -D -u
bindkey -e
bindkey '^I' complete-word
begin_offer() { print -r -- '<<<' }
end_offer() { print -r -- '>>>'; exit }
compprefuncs=(begin_offer)
comppostfuncs=(end_offer)

compadd() {
    # Calls with -O, -A or -D only look, and offer nothing.
    if [[ ${@[1,(i)(-|--)]} != *-(O|A|D)\ * ]]; then
        local -a offered
        builtin compadd -A offered "$@"
        (( ! $#offered )) || print -rl -- $offered
    fi
    builtin compadd "$@"
}

# The line that sources this file has no such word whole.
print -r -- rea''dy
