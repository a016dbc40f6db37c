# Completions of sct for bash.
_sct() {
  local word=${COMP_WORDS[COMP_CWORD]} command=${COMP_WORDS[1]:-} before=${COMP_WORDS[COMP_CWORD - 1]}
  COMPREPLY=()
  if ((COMP_CWORD == 1)); then
    mapfile -t COMPREPLY < <(compgen -W 'compile scl core reduce explain dot test simulate check list run migrate help --help --version' -- "$word")
    return
  fi
  if [[ $before == --workers ]]; then
    mapfile -t COMPREPLY < <(compgen -W '1 2 3 4 5 6 7 8' -- "$word")
    return
  fi
  if [[ $word == -* ]]; then
    local options='--explain --help'
    case $command in
      compile) options='--warn --explain --help' ;;
      list) options='--source --json --chart --explain --help' ;;
      test) options='--write --help' ;;
      run) options='--workers --chart --strict --skip-bad-lines --from --save --explain --help' ;;
    esac
    mapfile -t COMPREPLY < <(compgen -W "$options" -- "$word")
    return
  fi
  local ending='*.image'
  case $command in
    compile | scl | explain | dot | test | simulate) ending='*.@(chart|extended|scl)' ;;
    core) ending='*.@(chart|extended)' ;;
    reduce) ending='*.extended' ;;
  esac
  [[ $before == --source ]] && ending='*.@(chart|extended|scl)'
  [[ $before == --chart ]] && ending='*.@(chart|extended)'
  [[ $before == --from || $before == --save ]] && ending='*'
  [[ $command == compile && $COMP_CWORD -gt 2 ]] && ending='*.image'
  mapfile -t COMPREPLY < <(shopt -s extglob; compgen -f -X "!$ending" -- "$word"; compgen -d -- "$word")
  compopt -o filenames 2> /dev/null
}
complete -F _sct sct
