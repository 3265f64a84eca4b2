# Completion of sok for bash: source it, or put it into a folder of bash-completion.
_sok() {
  local commands="list replay draw solve check add offer offers prove settle show export" words="" word=${COMP_WORDS[COMP_CWORD]}
  if [ "$COMP_CWORD" -eq 1 ]; then
    words="$commands help --help --version"
    compopt +o default
  elif [ "${COMP_WORDS[1]}" = help ]; then
    words=$commands
    compopt +o default
  elif [[ $word == -* ]]; then
    case ${COMP_WORDS[1]} in
      list) words="--help" ;;
      replay) words="--help" ;;
      draw) words="--help" ;;
      solve) words="--below --limit --bound --cert --help" ;;
      check) words="--help" ;;
      add) words="--help" ;;
      offer) words="--help" ;;
      offers) words="--help" ;;
      prove) words="--help" ;;
      settle) words="--limit --from --to --certs --help" ;;
      show) words="--help" ;;
      export) words="--solutions --help" ;;
    esac
  fi
  # Where this finds no word, readline completes a file's name, and quotes it.
  COMPREPLY=($(compgen -W "$words" -- "$word"))
}
complete -o default -F _sok sok
