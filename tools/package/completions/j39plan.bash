# Completions of j39plan and its tools for bash.

# Files with one of the endings behind the word, in capitals too, and folders; where there are none, all files.
_j39plan_files() {
  local word=$1 ending
  shift
  compopt -o filenames 2> /dev/null
  mapfile -t COMPREPLY < <(for ending in "$@" "${@^^}"; do compgen -f -X "!*.$ending" -- "$word"; done; compgen -d -- "$word")
  [ "${#COMPREPLY[@]}" -gt 0 ] || mapfile -t COMPREPLY < <(compgen -f -- "$word")
}

# The tools that are run by `j39plan TOOL`, too.
_j39plan_tools='where answer startup dbc2plan log2plan plan2dbc join forwards compare mend against drift fleet table report signals codes plot tolog cut restbus probe lsp check-plans'

_j39plan() {
  if [ "$COMP_CWORD" -gt 1 ] && [[ " $_j39plan_tools " == *" ${COMP_WORDS[1]} "* ]]; then
    COMP_WORDS=("${COMP_WORDS[0]%j39plan}j39plan-${COMP_WORDS[1]}" "${COMP_WORDS[@]:2}")
    COMP_CWORD=$((COMP_CWORD - 1))
    _j39plan_tool
    return
  fi
  local word=${COMP_WORDS[COMP_CWORD]} place=$COMP_CWORD
  COMPREPLY=()
  [ "${COMP_WORDS[1]} ${COMP_WORDS[2]}" = 'follow --all' ] && place=$((place - 1))
  if [ "${COMP_WORDS[1]}" = audit ]; then
    # Options stand before the plan, --stamps and --quiet with a number behind them.
    local at=2
    while [ "$at" -lt "$COMP_CWORD" ] && [[ ${COMP_WORDS[at]} =~ ^--(part|stamps|quiet)$ ]]; do
      [ "${COMP_WORDS[at]}" = --part ] || at=$((at + 1))
      at=$((at + 1))
    done
    place=$((COMP_CWORD - at + 2))
  fi
  if [ "$COMP_CWORD" -eq 1 ]; then
    mapfile -t COMPREPLY < <(compgen -W "show variant check addresses load run read follow audit frame vehicle help $_j39plan_tools --help --version" -- "$word")
  elif [ "${COMP_WORDS[1]} $COMP_CWORD" = 'follow 2' ] && [[ $word == -* ]]; then
    COMPREPLY=(--all)
  elif [ "${COMP_WORDS[1]} $place" = 'audit 2' ] && [[ $word == -* ]]; then
    mapfile -t COMPREPLY < <(compgen -W '--part --stamps --quiet' -- "$word")
  elif [[ ${COMP_WORDS[1]} =~ ^(show|variant|check|addresses|load|run|read|follow|audit|vehicle)$ ]]; then
    case "$place ${COMP_WORDS[1]}" in
      '3 run') _j39plan_files "$word" schedule ;;
      '1 audit') ;;
      '3 read' | '3 follow' | '3 audit') _j39plan_files "$word" log ;;
      *) _j39plan_files "$word" toml ;;
    esac
  elif [ "${COMP_WORDS[1]}" = help ]; then
    mapfile -t COMPREPLY < <(compgen -W "show variant check addresses load run read follow audit frame vehicle $_j39plan_tools" -- "$word")
  fi
}
complete -F _j39plan j39plan

# The options of a tool are those of its help.
_j39plan_tool() {
  local word=${COMP_WORDS[COMP_CWORD]} tool=${COMP_WORDS[0]##*/} before=${COMP_WORDS[COMP_CWORD - 1]}
  COMPREPLY=()
  if [ "$before" = --kind ]; then
    mapfile -t COMPREPLY < <(compgen -W 'dbc arxml kcd sym csv xlsx ods' -- "$word")
  elif [[ $before =~ ^(-o|--output|--notes|--gitlab|--sarif|--junit|--xlsx|--reference|--columns)$ ]]; then
    compopt -o filenames 2> /dev/null
    mapfile -t COMPREPLY < <(compgen -f -- "$word")
  elif [[ $word == -* ]]; then
    mapfile -t COMPREPLY < <(compgen -W "$("${COMP_WORDS[0]}" --help 2> /dev/null | grep -oE -- '--[a-z][a-z-]*' | sort -u)" -- "$word")
  elif [ "$tool $before" = 'j39plan-variant --log' ]; then
    _j39plan_files "$word" log
  elif [ "$tool" = j39plan-dbc2plan ]; then
    _j39plan_files "$word" dbc arxml kcd sym csv xlsx ods
  elif [ "$tool" = j39plan-answer ] && [ "$COMP_CWORD" -eq 1 ]; then
    mapfile -t COMPREPLY < <(compgen -W 'check addresses load audit vehicle' -- "$word")
  elif [ "$tool" = j39plan-table ] && [ "$COMP_CWORD" -gt 1 ]; then
    mapfile -t COMPREPLY < <(compgen -W 'units groups signals flows needs requests plan' -- "$word")
  elif [ "$tool" = j39plan-log2plan ]; then
    case $before in
      --dbc) _j39plan_files "$word" dbc arxml kcd sym ;;
      --groups) _j39plan_files "$word" toml ;;
      *) _j39plan_files "$word" log ;;
    esac
  elif [ "$tool $before" = 'j39plan-cut --plan' ]; then
    _j39plan_files "$word" toml
  elif [ "$tool" = j39plan-cut ]; then
    _j39plan_files "$word" log
  elif [ "$tool $before" = 'j39plan-restbus --table' ]; then
    _j39plan_files "$word" csv
  elif [[ "$tool $before" =~ ^j39plan-restbus\ --(log|replay)$ ]]; then
    _j39plan_files "$word" log
  elif [ "$tool $before" = 'j39plan-probe --log' ]; then
    _j39plan_files "$word" log
  elif [ "$tool" = j39plan-tolog ]; then
    _j39plan_files "$word" asc blf trc mf4 csv
  elif [[ $tool =~ ^j39plan-(against|drift|fleet|signals|codes|plot)$ ]] && [ "$COMP_CWORD" -gt 1 ]; then
    _j39plan_files "$word" log
  else
    _j39plan_files "$word" toml
  fi
}
complete -F _j39plan_tool j39plan-where j39plan-answer j39plan-startup j39plan-dbc2plan j39plan-log2plan j39plan-plan2dbc j39plan-join j39plan-forwards j39plan-compare j39plan-variant j39plan-mend j39plan-against j39plan-drift j39plan-fleet j39plan-table j39plan-report j39plan-signals j39plan-codes j39plan-plot j39plan-tolog j39plan-cut j39plan-restbus j39plan-probe j39plan-lsp j39plan-check-plans
