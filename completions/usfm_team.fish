# Completes the words of usfm_team in fish: copy it to ~/.config/fish/completions/.

set -g __usfm_team_commands init import edit edit-over settle shown history changes restore receive join sync send export summary delta status progress page missing report check find words read thin fold merge faults
set -g __usfm_team_books GEN EXO LEV NUM DEU JOS JDG RUT 1SA 2SA 1KI 2KI 1CH 2CH EZR NEH EST JOB PSA PRO ECC SNG \
    ISA JER LAM EZK DAN HOS JOL AMO OBA JON MIC NAM HAB ZEP HAG ZEC MAL MAT MRK LUK JHN ACT \
    ROM 1CO 2CO GAL EPH PHP COL 1TH 2TH 1TI 2TI TIT PHM HEB JAS 1PE 2PE 1JN 2JN 3JN JUD REV

# How many words stand before the one that is completed, without the program's name, options and what is given to them. After `--`
# no word is an option.
function __usfm_team_place
    set -l words (commandline -opc)
    set -l place 0
    set -l ended
    set -l at 2
    while test $at -le (count $words)
        switch "$ended$words[$at]"
            case --since --into --text-of --sheet --width --versification --box --settle --names
                set at (math $at + 1)
            case --
                set ended yes
            case -
                set place (math $place + 1)
            case '-*'
            case '*'
                set place (math $place + 1)
        end
        set at (math $at + 1)
    end
    echo $place
end

# Whether books' files, files of answers or bundles are named, so that each word is one.
function __usfm_team_has_files
    contains -- --files (commandline -opc); or contains -- --answers (commandline -opc); or contains -- --from (commandline -opc)
end

# Whether the word after the command's name and this many words is completed, for one of these commands.
function __usfm_team_at
    not __usfm_team_has_files; and test (__usfm_team_place) -eq (math $argv[1] + 1); and contains -- (commandline -opc)[2] $argv[2..]
end

# The same of the word after the command's name and this many words, and of each after that.
function __usfm_team_from
    test $argv[1] -eq 0; or not __usfm_team_has_files; and test (__usfm_team_place) -ge (math $argv[1] + 1); and contains -- (commandline -opc)[2] $argv[2..]
end

complete -c usfm_team -f
complete -c usfm_team -n __fish_use_subcommand -a init -d 'Begins a project'
complete -c usfm_team -n __fish_use_subcommand -a import -d 'Takes in the files of books'
complete -c usfm_team -n __fish_use_subcommand -a edit -d 'Gives a segment the text of standard input'
complete -c usfm_team -n __fish_use_subcommand -a edit-over -d 'The same, in the place of given edits alone'
complete -c usfm_team -n __fish_use_subcommand -a settle -d 'Asks which text of each conflict is right'
complete -c usfm_team -n __fish_use_subcommand -a shown -d 'Shows a segment'
complete -c usfm_team -n __fish_use_subcommand -a history -d 'Lists all edits of a segment'
complete -c usfm_team -n __fish_use_subcommand -a changes -d 'Lists what changed, and who changed it'
complete -c usfm_team -n __fish_use_subcommand -a restore -d 'Gives segments a text that they had before'
complete -c usfm_team -n __fish_use_subcommand -a receive -d 'Takes in bundles'
complete -c usfm_team -n __fish_use_subcommand -a join -d 'Sets up a folder and a project for a new copy'
complete -c usfm_team -n __fish_use_subcommand -a sync -d 'Takes in a folder and bundles, and writes the books there'
complete -c usfm_team -n __fish_use_subcommand -a send -d 'Writes the bundle of all edits'
complete -c usfm_team -n __fish_use_subcommand -a export -d 'Writes the text of a book'
complete -c usfm_team -n __fish_use_subcommand -a summary -d 'Writes the summary of all edits'
complete -c usfm_team -n __fish_use_subcommand -a delta -d 'Writes what another project lacks'
complete -c usfm_team -n __fish_use_subcommand -a status -d 'Says how a project stands'
complete -c usfm_team -n __fish_use_subcommand -a progress -d 'Says how many verses of each chapter have a text'
complete -c usfm_team -n __fish_use_subcommand -a page -d 'Writes a page about the project, to look at in a browser'
complete -c usfm_team -n __fish_use_subcommand -a missing -d 'Says which verses are missing'
complete -c usfm_team -n __fish_use_subcommand -a report -d 'Reports the conflicts and what is awaited'
complete -c usfm_team -n __fish_use_subcommand -a check -d 'Checks the marks and the numbers of a book'
complete -c usfm_team -n __fish_use_subcommand -a find -d 'Finds a text in the verses of a book'
complete -c usfm_team -n __fish_use_subcommand -a words -d 'Lists the words of a book'
complete -c usfm_team -n __fish_use_subcommand -a read -d 'Writes a book as a reader sees it'
complete -c usfm_team -n __fish_use_subcommand -a thin -d 'Leaves out the texts that were replaced'
complete -c usfm_team -n __fish_use_subcommand -a fold -d 'Joins bundles and writes a book'
complete -c usfm_team -n __fish_use_subcommand -a combine -d 'Writes the one bundle of several'
complete -c usfm_team -n __fish_use_subcommand -a merge -d 'Merges two versions of a file of a book'
complete -c usfm_team -n __fish_use_subcommand -a faults -d 'Lists the faults, and what to do'
complete -c usfm_team -n __fish_use_subcommand -a help -d 'Prints the help of a command'
complete -c usfm_team -n __fish_use_subcommand -l help -d 'Prints help'
complete -c usfm_team -n __fish_use_subcommand -l version -d 'Prints the version'
complete -c usfm_team -n "__usfm_team_from 0 $__usfm_team_commands" -l help -d 'Prints the help of the command'
complete -c usfm_team -n "__usfm_team_from 0 $__usfm_team_commands" -l explain -d 'Says what a fault means, and what to do'
complete -c usfm_team -n '__usfm_team_from 0 changes sync status missing report check find' -l exit-code -d 'Exits with 3 for what is found'
complete -c usfm_team -n '__usfm_team_at 0 init import edit edit-over settle shown history changes restore receive join sync send export summary delta status progress page missing report check find words read thin combine' -F
complete -c usfm_team -n '__usfm_team_from 1 import receive sync status combine' -F
complete -c usfm_team -n '__usfm_team_from 0 import' -l since -rF -d 'Takes in what was changed since this bundle'
complete -c usfm_team -n '__usfm_team_from 0 changes restore' -l since -rF -d 'Since a day, or what a file or folder has'
complete -c usfm_team -n '__usfm_team_from 0 history changes restore' -l chapter -d 'Takes whole chapters'
complete -c usfm_team -n '__usfm_team_from 0 send delta combine' -l sealed -d 'Seals the bundle'
complete -c usfm_team -n '__usfm_team_from 0 changes' -l text -d 'With what was shown, and what is'
complete -c usfm_team -n '__usfm_team_from 0 restore' -l all -d 'All segments'
complete -c usfm_team -n '__usfm_team_from 0 edit-over' -l text-of -xd 'Takes the text of this edit'
complete -c usfm_team -n '__usfm_team_from 0 export' -l into -rF -d 'Into the files of a folder'
complete -c usfm_team -n '__usfm_team_from 0 check find words read' -l sheet -rF -d 'By this style sheet'
complete -c usfm_team -n '__usfm_team_from 0 read' -l width -x -d 'In lines of so many columns'
complete -c usfm_team -n '__usfm_team_from 0 check find' -l text -d 'With the line of the text'
complete -c usfm_team -n '__usfm_team_from 0 check find' -l lines -d 'By lines and columns'
complete -c usfm_team -n '__usfm_team_from 0 check find words missing' -l files -rF -d 'Of books\' files'
complete -c usfm_team -n '__usfm_team_from 0 settle' -l answers -rF -d 'Takes the answers of files'
complete -c usfm_team -n __usfm_team_has_files -F
complete -c usfm_team -n '__usfm_team_from 0 progress page missing' -l versification -rF -d 'By this versification'
complete -c usfm_team -n '__usfm_team_from 0 missing' -l all -d 'With the books of which there is nothing'
complete -c usfm_team -n '__usfm_team_from 0 join sync' -l box -rF -d 'A folder where all leave their bundles'
complete -c usfm_team -n '__usfm_team_from 0 sync' -l settle -x -a "$__usfm_team_books" -d 'Has the file settle a conflict'
complete -c usfm_team -n '__usfm_team_from 0 sync restore' -l try -d 'Says what would be done'
complete -c usfm_team -n '__usfm_team_from 0 sync' -l quiet -d 'Says only what was not done'
complete -c usfm_team -n '__usfm_team_from 0 join sync' -l names -x -d 'Names new files in this manner'
complete -c usfm_team -n '__usfm_team_from 0 join' -l from -rF -d 'Begins with these bundles'
complete -c usfm_team -n '__usfm_team_from 0 sync' -l remember -d 'Has the folder remember what is said'
complete -c usfm_team -n '__usfm_team_from 0 sync' -l emptied -d 'The texts are gone on purpose'
complete -c usfm_team -n '__usfm_team_from 0 sync' -l undone -d 'It was undone on purpose'
complete -c usfm_team -n '__usfm_team_from 0 sync' -l stale -d 'The file is an older one'
complete -c usfm_team -n '__usfm_team_from 0 sync' -l join -d 'Joins the other project'
complete -c usfm_team -n '__usfm_team_from 0 merge' -l stdout -d 'To standard output'
complete -c usfm_team -n '__usfm_team_from 0 merge' -l mark -d 'With the other text of each conflict, as remarks'
complete -c usfm_team -n '__usfm_team_from 0 merge' -l ask -d 'Asks about each conflict'
complete -c usfm_team -n '__usfm_team_at 0 merge' -F
complete -c usfm_team -n '__usfm_team_at 1 delta merge' -F
complete -c usfm_team -n '__usfm_team_at 2 merge' -F
complete -c usfm_team -n '__usfm_team_at 1 progress read' -a "$__usfm_team_books"
complete -c usfm_team -n '__usfm_team_at 2 check find words' -F
complete -c usfm_team -n '__usfm_team_at 1 check find words' -a "$__usfm_team_books"
complete -c usfm_team -n '__usfm_team_from 1 export settle missing history changes restore' -a "$__usfm_team_books"
complete -c usfm_team -n '__usfm_team_at 0 fold' -a "$__usfm_team_books"
complete -c usfm_team -n '__usfm_team_at 0 help' -a "$__usfm_team_commands"
