# Completes the words of cidranoth in fish.

# Whether a word at this place behind one of these words is completed. Options of run and gen and their numbers stand in
# front and aren't counted.
function __cidranoth_at --argument-names place
    set -l given (commandline -opc)
    set -l word "$given[2]"
    contains -- $word $argv[2..]; or return 1
    set -e given[1..2]
    if contains -- $word run gen
        while string match -q -- '-*' "$given[1]"
            if test $given[1] != --inline
                # Its number stands there.
                set -q given[2]; or return 1
                set -e given[1]
            end
            set -e given[1]
        end
    end
    test (count $given) -eq (math $place - 1)
end

# Prints what the names of the files begin with whose family is named.
function __cidranoth_prefix
    set -l given (commandline -opc)
    switch "$given[3]"
        case session
            echo Session_
        case tabs
            echo Tabs_
    end
end

# Prints the stamps of the family's files, the newest first: those in the folder where it is named already, behind the
# stamp.
function __cidranoth_stamps
    set -l prefix (__cidranoth_prefix)
    test -n "$prefix"; or return
    set -l folders . Sessions sessions
    set -l all (commandline -op)
    set -l next (math (count (commandline -opc)) + 1)
    test -z (commandline -ct); or set next (math $next + 1)
    set -l named (string replace -r '^~/' "$HOME/" -- "$all[$next]")
    test -d "$named"; and set folders $named
    for folder in $folders
        for file in $folder/$prefix*
            string match -r -- '(?<=_)\d+$' $file
        end
    end | sort -rnu
end

# Prints folders, those that hold the file first.
function __cidranoth_folders
    set -l given (commandline -opc)
    set -l prefix (__cidranoth_prefix)
    set -l begun (commandline -ct)
    set -l others
    for line in (__fish_complete_directories "$begun" folder)
        set -l folder (string split -f 1 \t -- $line | string replace -r '^~/' "$HOME/")
        if test -n "$prefix" -a -e "$folder/$prefix$given[4]"
            string replace -r '\t.*' \t'folder with the file' -- $line
        else
            set -a others $line
        end
    end
    string join \n -- $others
end

set -l first 'test (count (commandline -opc)) -eq 1'
set -l words run gen list check show recover json view

complete -c cidranoth -f
complete -c cidranoth -n $first -a run -d 'do a script in the session that a folder holds'
complete -c cidranoth -n $first -a gen -d 'do a script that is drawn from a number'
complete -c cidranoth -n $first -a list -d 'print each session file of a folder'
complete -c cidranoth -n $first -a check -d 'print how many commands a file has, and how it ends'
complete -c cidranoth -n $first -a show -d 'print each command of a file'
complete -c cidranoth -n $first -a recover -d 'print what the files of a folder read to, in lines'
complete -c cidranoth -n $first -a json -d 'print what the files of a folder read to, as JSON'
complete -c cidranoth -n $first -a view -d 'print what the files of a folder read to, as HTML'
complete -c cidranoth -n $first -l help -d 'print the words'
complete -c cidranoth -n $first -l version -d 'print the version'

set -l second 'test (count (commandline -opc)) -eq 2'
complete -c cidranoth -n "$second; and __cidranoth_at 1 $words" -l help -d 'show how the word is used'

set -l options '__cidranoth_at 1 run gen; and not __fish_contains_opt'
complete -c cidranoth -n "$options inline" -l inline -d 'write by the thread that reads the script'
complete -c cidranoth -n "$options every" -x -l every -d 'replace a file where more commands would follow its marker'
complete -c cidranoth -n "$options max-file" -x -l max-file -d 'replace a file where it would have more bytes'
complete -c cidranoth -n '__cidranoth_at 1 run; and not __fish_contains_opt max-script' -x -l max-script \
    -d 'refuse a script of more bytes'

complete -c cidranoth -n '__cidranoth_at 1 run list recover json view' -a '(__cidranoth_folders)'
complete -c cidranoth -n '__cidranoth_at 3 gen' -a '(__cidranoth_folders)'
complete -c cidranoth -n '__cidranoth_at 1 check show' -a 'session tabs' -d family
complete -c cidranoth -n '__cidranoth_at 2 check show' -k -a '(__cidranoth_stamps)' -d stamp
complete -c cidranoth -n '__cidranoth_at 3 check show' -k -a '(__cidranoth_folders)'
