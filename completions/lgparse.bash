# Completion of lgparse for bash: commands, options with their values, and files in the places of files.
_lgparse() {
  local word=${COMP_WORDS[COMP_CWORD]} before=${COMP_WORDS[COMP_CWORD - 1]} command=${COMP_WORDS[1]-} i operands=0
  local options='--want --examine --nulls --idioms --diagram --stats --prune --workers'
  [[ $command == run ]] && options+=' --usage'
  COMPREPLY=()
  # (`=` is a word of its own here: --want = 3)
  [[ $word == = ]] && word='' before=${COMP_WORDS[COMP_CWORD - 1]}
  [[ $before == = ]] && before=${COMP_WORDS[COMP_CWORD - 2]}
  if ((COMP_CWORD == 1)); then
    local commands='one run gen export audit'
    # (what is installed is the program alone)
    [[ ${COMP_WORDS[0]} == */* && -d ${COMP_WORDS[0]%/*}/../crates ]] && commands+=' --build --install --help'
    mapfile -t COMPREPLY < <(compgen -W "$commands" -- "$word")
    return
  fi
  case $command:$before in
    --install:*) compopt -o filenames 2>/dev/null && mapfile -t COMPREPLY < <(compgen -d -- "$word") && return ;;
    [!-]*:--nulls) mapfile -t COMPREPLY < <(compgen -W 'first passing' -- "$word") && return ;;
    [!-]*:--idioms | [!-]*:--diagram | [!-]*:--stats | [!-]*:--prune | run:--usage) mapfile -t COMPREPLY < <(compgen -W 'on off' -- "$word") && return ;;
    [!-]*:--want | [!-]*:--examine | [!-]*:--workers) return ;;
  esac
  if [[ $command == export ]]; then
    ((COMP_CWORD <= 3)) || return
    compopt -o filenames 2>/dev/null
    mapfile -t COMPREPLY < <(compgen -f -- "$word")
    return
  fi
  if [[ $command == audit ]]; then
    compopt -o filenames 2>/dev/null
    mapfile -t COMPREPLY < <(compgen -f -- "$word")
    return
  fi
  [[ $command == one || $command == run ]] || return
  for ((i = 2; i < COMP_CWORD; i++)); do
    case ${COMP_WORDS[i]} in
      --*) [[ ${COMP_WORDS[i + 1]} == = ]] && ((i++))
        ((i++)) ;;
      *) ((operands++)) ;;
    esac
  done
  if [[ $word == -* ]]; then
    ((operands)) || mapfile -t COMPREPLY < <(compgen -W "$options" -- "$word")
  elif [[ $command == run ]] || ((operands == 0)); then
    compopt -o filenames 2>/dev/null
    mapfile -t COMPREPLY < <(compgen -f -- "$word")
  fi
}
complete -F _lgparse lgparse
