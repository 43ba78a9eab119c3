# Completion of bin/ptrun and bin/try for bash: source this file.
_ptrun() {
  local word=${COMP_WORDS[COMP_CWORD]} before=${COMP_WORDS[COMP_CWORD - 1]}
  COMPREPLY=()
  if [[ $before == --budget || $before == --workers || $before == gen || $before == demo ]]; then
    return
  elif ((COMP_CWORD == 1)); then
    local first="run check gen demo --help --version"
    [[ ${COMP_WORDS[0]##*/} == ptrun ]] && first="$first --rebuild"
    mapfile -t COMPREPLY < <(compgen -W "$first" -- "$word")
  elif [[ $word == -* ]]; then
    local options="--budget --workers --help"
    [[ ${COMP_WORDS[1]} == check ]] && options="--help"
    mapfile -t COMPREPLY < <(compgen -W "$options" -- "$word")
  elif [[ $before == --rebuild ]]; then
    mapfile -t COMPREPLY < <(compgen -W "run check gen demo" -- "$word")
  else
    compopt -o filenames 2>/dev/null
    mapfile -t COMPREPLY < <(
      compgen -d -- "$word"
      compgen -f -X '!*.json' -- "$word"
    )
  fi
}
complete -F _ptrun ptrun bin/ptrun ./bin/ptrun bin/try ./bin/try
