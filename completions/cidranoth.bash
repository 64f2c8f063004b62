# Completes the words of cidranoth in bash.

# Prints the folders that continue $1, those that hold the file $2 first where it is given.
_cidranoth_folders() {
    local folder path others=()
    while IFS= read -r folder; do
        path=${folder/#'~/'/$HOME/}
        if [[ -z $2 || -e $path/$2 ]]; then
            printf '%s\n' "$folder"
        else
            others+=("$folder")
        fi
    done < <(
        # Without a word begun, the current folder is one to choose too.
        [[ -n $1 || -z $2 || ! -e $2 ]] || echo .
        compgen -d -- "$1" | sort
    )
    ((${#others[@]} == 0)) || printf '%s\n' "${others[@]}"
}

# Prints the stamps of the family whose files begin with $1 in the folders behind it, the newest first.
_cidranoth_stamps() {
    local prefix=$1 folder name
    shift
    for folder; do
        while IFS= read -r name; do
            name=${name##*/"$prefix"}
            [[ $name == *[!0-9]* ]] || printf '%s\n' "$name"
        done < <(compgen -f -- "$folder/$prefix")
    done | sort -rnu
}

_cidranoth() {
    local words='run gen list check show recover json view --help --version'
    local all=("${COMP_WORDS[@]}") cur=${2-${COMP_WORDS[COMP_CWORD]}} word=${COMP_WORDS[1]} place=$COMP_CWORD
    local prefix='' named='' options='' wanted=''
    COMPREPLY=()

    # Where the cursor stands one space before a word, bash takes that one for the word at the cursor.
    if [[ -z $cur && -n ${all[place]} && ${COMP_LINE:COMP_POINT:1} == ' ' ]]; then
        all=("${all[@]:0:place}" '' "${all[@]:place}")
    fi

    if ((place == 1)); then
        mapfile -t COMPREPLY < <(compgen -W "$words" -- "$cur")
        return
    fi
    if ((place == 2)) && [[ $cur == -* && " $words " == *" $word "* ]]; then
        options=--help
    fi

    case $word in
    run | gen)
        # Options stand in front, each at most once; place becomes that of a word behind them.
        local known='--inline --every --max-file' given=' ' option n=2
        [[ $word == gen ]] || known+=' --max-script'
        while ((n < COMP_CWORD)) && [[ ${all[n]} == -* ]]; do
            given+="${all[n]} "
            [[ ${all[n]} == --inline ]] || ((n++))
            ((n++))
        done
        ((place = COMP_CWORD - n + 2))
        # The number of the last option stands there.
        ((place >= 2)) || return
        if ((place == 2)); then
            for option in $known; do
                [[ $given == *" $option "* ]] || options+=" $option"
            done
        fi
        [[ $word$place == run2 || $word$place == gen4 ]] && wanted=folder
        ;;
    list | recover | json | view)
        ((place == 2)) && wanted=folder
        ;;
    check | show)
        case ${all[2]} in
        session) prefix=Session_ ;;
        tabs) prefix=Tabs_ ;;
        esac
        case $place in
        2) wanted=family ;;
        3) wanted=stamp ;;
        4) wanted=folder named=${prefix:+$prefix${all[3]}} ;;
        esac
        ;;
    esac

    if [[ $cur == -* ]]; then
        mapfile -t COMPREPLY < <(compgen -W "$options" -- "$cur")
    elif [[ $wanted == family ]]; then
        mapfile -t COMPREPLY < <(compgen -W 'session tabs' -- "$cur")
    elif [[ $wanted == folder ]]; then
        compopt -o nosort -o filenames 2>/dev/null
        mapfile -t COMPREPLY < <(_cidranoth_folders "$cur" "$named")
    elif [[ $wanted == stamp && -n $prefix ]]; then
        # The folder may be named already, behind the stamp.
        local folders=(. Sessions sessions) folder=${all[4]/#'~/'/$HOME/}
        [[ -z $folder || ! -d $folder ]] || folders=("$folder")
        compopt -o nosort 2>/dev/null
        mapfile -t COMPREPLY < <(compgen -W "$(_cidranoth_stamps "$prefix" "${folders[@]}")" -- "$cur")
    fi
}

complete -F _cidranoth cidranoth
