# Completes the words of usfm_team in bash: put the line `. PATH/completions/usfm_team.bash` into ~/.bashrc.

_usfm_team() {
    local commands="init import edit edit-over settle shown history changes restore receive join sync send export summary delta status progress page missing report check find words read thin fold combine merge faults help"
    local books="GEN EXO LEV NUM DEU JOS JDG RUT 1SA 2SA 1KI 2KI 1CH 2CH EZR NEH EST JOB PSA PRO ECC SNG
        ISA JER LAM EZK DAN HOS JOL AMO OBA JON MIC NAM HAB ZEP HAG ZEC MAL MAT MRK LUK JHN ACT
        ROM 1CO 2CO GAL EPH PHP COL 1TH 2TH 1TI 2TI TIT PHM HEB JAS 1PE 2PE 1JN 2JN 3JN JUD REV"
    local word=${COMP_WORDS[COMP_CWORD]} command=${COMP_WORDS[1]} options="--explain --help" asked=() more="" kind at place=0 ended="" given="" files=""
    COMPREPLY=()
    # How many words stand before this one, without options and what is given to them. After `--` no word is an option.
    for ((at = 1; at < COMP_CWORD; at++)); do
        case $ended${COMP_WORDS[at]} in
            # In bash `--into=texts` is three words.
            --since | --into | --text-of | --sheet | --width | --versification | --box | --settle | --names) given=${COMP_WORDS[at]} at=$((at + 1)); [ "${COMP_WORDS[at]}" != = ] || at=$((at + 1)) ;;
            --files | --answers | --from) files=yes ;;
            --) ended=yes ;;
            -?*) ;;
            *) place=$((place + 1)) ;;
        esac
    done
    # What each command asks for, word by word, and then for each word more; what is not listed is free text.
    case $command in
        init | edit | shown | summary | thin) asked=(file) ;;
        send) asked=(file) options="--sealed --explain --help" ;;
        report) asked=(file) options="--exit-code --explain --help" ;;
        edit-over) asked=(file) options="--text-of --explain --help" ;;
        settle) asked=(file) more=book options="--answers --explain --help" ;;
        history) asked=(file) more=book options="--chapter --explain --help" ;;
        changes) asked=(file) more=book options="--since --chapter --text --exit-code --explain --help" ;;
        restore) asked=(file) more=book options="--since --all --chapter --try --explain --help" ;;
        import) asked=(file) more=file options="--since --explain --help" ;;
        receive) asked=(file) more=file ;;
        status) asked=(file) more=file options="--exit-code --explain --help" ;;
        progress) asked=(file book) options="--versification --explain --help" ;;
        page) asked=(file) options="--versification --explain --help" ;;
        missing) asked=(file) more=book options="--files --versification --all --exit-code --explain --help" ;;
        join) asked=(file) options="--box --names --from --explain --help" ;;
        sync) asked=(file) more=file options="--box --settle --try --quiet --names --remember --emptied --undone --stale --join --exit-code --explain --help" ;;
        delta) asked=(file file) options="--sealed --explain --help" ;;
        export) asked=(file) more=book options="--into --explain --help" ;;
        check | find) asked=(file book file) options="--files --sheet --text --lines --exit-code --explain --help" ;;
        words) asked=(file book file) options="--files --sheet --explain --help" ;;
        read) asked=(file book) options="--sheet --width --explain --help" ;;
        fold) asked=(book) ;;
        combine) more=file options="--sealed --explain --help" ;;
        merge) asked=(file file file) options="--stdout --mark --ask --explain --help" ;;
        help) asked=(command) options="" ;;
    esac
    # After `--files`, `--answers` and `--from` each word is a file.
    [ -z "$files" ] || asked=() more="file"
    if [ "$at" -gt "$COMP_CWORD" ]; then
        # What is given to an option: a file, but for a segment, an id, a name or a number.
        case $given in
            --settle) kind="book" ;;
            --names | --text-of | --width) kind="text" ;;
            *) kind="file" ;;
        esac
    elif [ "$place" -eq 0 ]; then
        kind="program" options="--help --version"
    else
        kind=${asked[place - 1]:-$more}
    fi
    [[ $at -gt $COMP_CWORD || $ended$word != -* ]] || kind="option"
    case $kind in
        file) compopt -o filenames 2>/dev/null; mapfile -t COMPREPLY < <(compgen -f -- "$word") ;;
        book) mapfile -t COMPREPLY < <(compgen -W "$books" -- "$word") ;;
        program) mapfile -t COMPREPLY < <(compgen -W "$commands" -- "$word") ;;
        command) mapfile -t COMPREPLY < <(compgen -W "${commands% help}" -- "$word") ;;
        option) mapfile -t COMPREPLY < <(compgen -W "$options" -- "$word") ;;
    esac
}
complete -F _usfm_team usfm_team
