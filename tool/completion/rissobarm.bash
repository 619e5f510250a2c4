# Completion of the words of rissobarm, for bash.
_rissobarm() {
  local word=${COMP_WORDS[COMP_CWORD]} before=${COMP_WORDS[COMP_CWORD - 1]} command=${COMP_WORDS[1]}
  local runs='--supply --arrivals --strict --steps --slice --json --progress' options
  COMPREPLY=()
  if [ "$COMP_CWORD" = 1 ]; then
    mapfile -t COMPREPLY < <(compgen -W 'check compile print run resume replay show why help --version' -- "$word")
    return
  fi
  case $before in
  --steps | --slice | --supply) return ;;
  esac
  case $command in
  check) options='--names --json' ;;
  compile | print) options='--names -o --json' ;;
  run) options="--names --save --trace $runs" ;;
  resume) options="--plan --names --save --trace $runs" ;;
  replay) options='--names --save --json' ;;
  show) options="--names --all --dot $runs" ;;
  why) options="--names $runs" ;;
  *) return ;;
  esac
  if [[ $word == -* ]]; then
    mapfile -t COMPREPLY < <(compgen -W "$options" -- "$word")
  else
    mapfile -t COMPREPLY < <(compgen -f -- "$word")
  fi
}
complete -o filenames -F _rissobarm rissobarm
