# Completion of the words of rissobarm-index, for bash.
_rissobarm_index() {
  local word=${COMP_WORDS[COMP_CWORD]} before=${COMP_WORDS[COMP_CWORD - 1]} command=${COMP_WORDS[1]} options='--conf --json'
  COMPREPLY=()
  if [ "$COMP_CWORD" = 1 ]; then
    mapfile -t COMPREPLY < <(compgen -W 'init check serve work edit answer jobs status why trouble retry replan verify rebuild search age help --version' -- "$word")
    return
  fi
  case $before in
  --http | --cursor | --limit | --since) return ;;
  esac
  case $command in
  serve) options+=' --http' ;;
  work) options+=' --once' ;;
  edit) options+=' --cursor' ;;
  answer) options+=' --text --lines' ;;
  jobs | trouble | search) options+=' --limit' ;;
  retry | replan) options+=' --all' ;;
  verify) options+=' --repair' ;;
  rebuild) options+=' --beside' ;;
  age) options+=' --since --svg' ;;
  esac
  if [[ $word == -* ]]; then
    mapfile -t COMPREPLY < <(compgen -W "$options" -- "$word")
  else
    mapfile -t COMPREPLY < <(compgen -f -- "$word")
  fi
}
complete -o filenames -F _rissobarm_index rissobarm-index
