# Completion of tsctl for bash.
_tsctl() {
  local word="${COMP_WORDS[COMP_CWORD]}" before="${COMP_WORDS[COMP_CWORD - 1]}" at
  local commands="run par log check checkpoint audit demo why"
  COMPREPLY=()
  case "$before" in
    --in | --new)
      compopt -o filenames 2>/dev/null
      mapfile -t COMPREPLY < <(compgen -d -- "$word")
      return
      ;;
    par) mapfile -t COMPREPLY < <(compgen -W json -- "$word"); return ;;
  esac
  # After a command there may be a redirection from a file, and nothing else.
  for ((at = 1; at < COMP_CWORD; at++)); do
    if [[ " $commands " == *" ${COMP_WORDS[at]} "* && "${COMP_WORDS[at - 1]}" != --* ]]; then
      compopt -o default 2>/dev/null
      return
    fi
  done
  mapfile -t COMPREPLY < <(compgen -W "$commands --in --new --proved --unproved --help --version" -- "$word")
}
complete -F _tsctl tsctl
