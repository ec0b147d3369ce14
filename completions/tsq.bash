# Completion of tsq for bash. Commands and options are those that tsq itself lists.
_tsq() {
  local word="${COMP_WORDS[COMP_CWORD]}" command="${COMP_WORDS[1]}"
  COMPREPLY=()
  if [ "$COMP_CWORD" -eq 1 ]; then
    mapfile -t COMPREPLY < <(compgen -W "$(tsq --help 2>/dev/null | sed -n 's/.*{\(.*\)}.*/\1/p' | head -n 1 | tr , ' ')" -- "$word")
    compopt -o default 2>/dev/null
  elif [[ "$word" == -* ]]; then
    mapfile -t COMPREPLY < <(compgen -W "$(tsq "$command" --help 2>/dev/null | grep -o -- '--[a-z][a-z-]*' | sort -u)" -- "$word")
  else
    compopt -o default 2>/dev/null
  fi
}
complete -F _tsq tsq
