# Completion for perfly, perfly_live and fly in bash: source this file, or copy it to where bash-completion looks for one (README.md).

# The words of perfly, of perfly_live, and those that fly adds.
_perfly_words="--mode --dbase --ahead --make --probe --stream"
_perfly_live_words="--mode --ahead --stream"
_fly_words="--jobs --quick --into --install --help --version"
# Those of fly render.
_render_words="-o --smooth --rate --frame --report"

# The values that may follow a word; of --jobs, as many as there are processors, and of --stream some of those that may. Those of
# --probe only its user knows.
_perfly_values() {
    case $1 in
        --mode) echo appculldraw app_culldraw appcull_draw app_cull_draw ;;
        --ahead) echo {1..4} ;;
        --make) echo {1..256} ;;
        --stream) echo 1 4 16 64 256 1024 4096 ;;
        --smooth) echo 2 3 4 ;;
        --rate) echo 24 25 30 60 ;;
        --jobs) seq -s ' ' "$(nproc 2> /dev/null || echo 4)" ;;
    esac
}

# Whether the word before the cursor can be the file of a play: behind render or --into.
_perfly_names_play() {
    local before=" ${COMP_WORDS[*]:1:COMP_CWORD-1} " prev=${COMP_WORDS[COMP_CWORD - 1]}
    [[ $1 != [-=]* && $prev != = && $prev != --probe && -z $(_perfly_values "$prev") ]] || return 1
    [[ $before == " render "* || ($before == *" --into "* && -n $1) ]]
}

# Offers the values of the word before the cursor, else the words that don't stand yet; files behind a redirection alone.
_perfly() {
    local cur=${COMP_WORDS[COMP_CWORD]} prev=${COMP_WORDS[COMP_CWORD - 1]} offered=$_perfly_words values word left=""
    # Bash cuts --ahead=2 into three words.
    if [ "$cur" = "=" ]; then
        cur=""
    elif [ "$prev" = "=" ]; then
        prev=${COMP_WORDS[COMP_CWORD - 2]}
    fi
    if [[ ${1##*/} == perfly_live ]]; then
        offered=$_perfly_live_words
    elif [[ ${1##*/} == fly && ${COMP_WORDS[1]} == render && $COMP_CWORD -gt 1 ]]; then
        offered="$_render_words ${_perfly_words/--make /} --jobs"
    elif [[ ${1##*/} == fly && ${COMP_WORDS[1]} == live && $COMP_CWORD -gt 1 ]]; then
        offered="$_perfly_live_words --jobs --install"
    elif [[ ${1##*/} == fly ]]; then
        offered+=" $_fly_words"
        [[ $COMP_CWORD -gt 1 || $cur != [lr]* ]] || offered="live render"
    fi
    COMPREPLY=()
    if [[ $prev == *[\<\>] || $prev == -o || $prev == --report || $prev == --in* ]] || _perfly_names_play "$cur"; then
        compopt -o filenames 2> /dev/null
        mapfile -t COMPREPLY < <(compgen -f -- "$cur")
        return
    fi
    [ "$prev" != --probe ] || return 0
    if [[ " $offered " == *" $prev "* ]]; then
        values=$(_perfly_values "$prev")
        if [ -n "$values" ]; then
            mapfile -t COMPREPLY < <(compgen -W "$values" -- "$cur")
            return
        fi
    fi
    for word in $offered; do
        [[ " ${COMP_WORDS[*]:1:COMP_CWORD-1} " == *" $word "* ]] || left+=" $word"
    done
    mapfile -t COMPREPLY < <(compgen -W "$left" -- "$cur")
}

complete -F _perfly perfly perfly_live fly
