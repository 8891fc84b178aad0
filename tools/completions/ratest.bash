# Completion of ratest and ratest_plus for bash.
# shellcheck shell=bash

# The words that may stand at the cursor: a file, a folder, or the commands.
_ratest() {
  local current=${COMP_WORDS[COMP_CWORD]} place=0 i
  local kinds=(file folder file file)
  COMPREPLY=()
  case ${COMP_WORDS[COMP_CWORD - 1]} in
    --conflicts | --work) return ;;
  esac
  if [[ $current == -* ]]; then
    mapfile -t COMPREPLY < <(compgen -W '--conflicts --work --help --version' -- "$current")
    return
  fi
  # Which of the words that are no option this one is.
  for ((i = 1; i < COMP_CWORD; i++)); do
    case ${COMP_WORDS[i]} in
      --conflicts | --work) ((i++)) ;;
      -*) ;;
      *) ((place++)) ;;
    esac
  done
  if [[ ${COMP_WORDS[0]##*/} == ratest_plus ]]; then
    if [ "$place" -eq 0 ]; then
      mapfile -t COMPREPLY < <(compgen -W 'ra row grade prove check' -- "$current")
      return
    fi
    ((place--))
    case ${COMP_WORDS[1]} in
      row) kinds=(none "${kinds[@]}") ;;
      check) kinds=(file "${kinds[@]}") ;;
    esac
  fi
  compopt -o filenames
  case ${kinds[place]-none} in
    file) mapfile -t COMPREPLY < <(compgen -f -- "$current") ;;
    folder) mapfile -t COMPREPLY < <(compgen -d -- "$current") ;;
  esac
}

complete -F _ratest ratest ratest_plus
