# Completion for bash: the commands of som, their flags, and files whose names end as a command takes them.

_som_files() {
  local it
  while IFS= read -r it; do COMPREPLY+=("$it"); done < <(compgen -d -- "$2"; compgen -f -X "!*.@($1)" -- "$2")
}

_som() {
  local word=${COMP_WORDS[COMP_CWORD]} before=${COMP_WORDS[COMP_CWORD - 1]}
  COMPREPLY=()
  shopt -q extglob || { shopt -s extglob; local had_none=1; }
  if ((COMP_CWORD == 1)); then
    mapfile -t COMPREPLY < <(compgen -W '@COMMANDS@' -- "$word")
  else
    case ${COMP_WORDS[1]} in
      library) ((COMP_CWORD == 2)) && mapfile -t COMPREPLY < <(compgen -f -- "$word") || _som_files 'idl|bod' "$word" ;;
      client) ((COMP_CWORD <= 3)) && mapfile -t COMPREPLY < <(compgen -f -- "$word") || _som_files 'idl|bod|main' "$word" ;;
      run)
        if ((COMP_CWORD <= 3)); then
          mapfile -t COMPREPLY < <(compgen -f -- "$word")
        elif [[ $before != --fuel ]]; then
          mapfile -t COMPREPLY < <(compgen -W '--fuel --trace' -- "$word")
        fi
        ;;
      tower) ((COMP_CWORD == 2)) && mapfile -t COMPREPLY < <(compgen -W 'make check run' -- "$word") || mapfile -t COMPREPLY < <(compgen -f -- "$word") ;;
      generate) ;;
      *) mapfile -t COMPREPLY < <(compgen -f -- "$word") ;;
    esac
  fi
  [[ -z ${had_none-} ]] || shopt -u extglob
}

complete -o filenames -F _som som
