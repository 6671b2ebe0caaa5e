# bash completion for occam; made by scripts/completions
_occam() {
    local word=${COMP_WORDS[COMP_CWORD]} ends='' choices='' end
    COMPREPLY=()
    case ${COMP_CWORD}:${COMP_WORDS[1]} in
    1:*) choices="check same refine traces deadlock deterministic why normalise normal belongs run steps witness replay transform expand derive prove draw aut promela stress help --version" ;;
    2:help) choices="check same refine traces deadlock deterministic why normalise normal belongs run steps witness replay transform expand derive prove draw aut promela stress" ;;
    2:check) ends="occ" ;;
    2:same) ends="occ" ;;
    3:same) ends="occ" ;;
    2:refine) ends="occ" ;;
    3:refine) ends="occ" ;;
    2:traces) ends="occ" ;;
    3:traces) ends="occ" ;;
    2:deadlock) ends="occ" ;;
    2:deterministic) ends="occ" ;;
    2:why) ends="occ" ;;
    3:why) ends="occ" ;;
    2:normalise) ends="occ" ;;
    2:normal) ends="normal" ;;
    2:belongs) ends="occ" ;;
    3:belongs) ends="behaviour" ;;
    2:run) ends="occ" ;;
    3:run) ends="schedule" ;;
    2:steps) ends="occ" ;;
    3:steps) ends="schedule" ;;
    2:witness) ends="occ" ;;
    3:witness) ends="behaviour" ;;
    2:replay) ends="script" ;;
    2:transform) ends="occ" ;;
    3:transform) ends="orders" ;;
    2:expand) ends="occ" ;;
    3:expand) choices=/ ;;
    2:derive) ends="occ" ;;
    2:prove) ends="occ" ;;
    3:prove) ends="occ" ;;
    2:draw) ends="normal script" ;;
    2:aut) ends="occ" ;;
    2:promela) ends="occ" ;;
    2:stress) choices="buffers adders muxes" ;;
    esac
    if [ -n "$choices" ]; then
        mapfile -t COMPREPLY < <(compgen -W "$choices" -- "$word")
    elif [ -n "$ends" ]; then
        compopt -o filenames 2>/dev/null
        for end in $ends; do
            mapfile -t -O "${#COMPREPLY[@]}" COMPREPLY < <(compgen -f -X "!*.$end" -- "$word")
        done
        mapfile -t -O "${#COMPREPLY[@]}" COMPREPLY < <(compgen -d -- "$word")
    fi
}
complete -o bashdefault -o default -F _occam occam
