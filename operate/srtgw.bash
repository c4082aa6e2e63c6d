# Completion of srtgw's command line for bash.
_srtgw() {
  local word=${COMP_WORDS[COMP_CWORD]} before=${COMP_WORDS[COMP_CWORD - 1]} command=${COMP_WORDS[1]-} words=""
  if [ "$COMP_CWORD" -eq 1 ]; then
    mapfile -t COMPREPLY < <(compgen -W "check replay explain serve run help --help --version" -- "$word")
    return
  fi
  case $before in
    --rounds) return ;;
    --log) mapfile -t COMPREPLY < <(compgen -W "text json" -- "$word"); return ;;
    --for) mapfile -t COMPREPLY < <(compgen -W "30s 10m 1h30m 8h 7d" -- "$word"); return ;;
  esac
  case $command in
    check) words="--explain --addresses --help" ;;
    replay) words="--help" ;;
    explain) words="--output --help" ;;
    serve) words="--rounds --help" ;;
    run) words="--for --no-time --log --help" ;;
    help) words="check replay explain serve run" ;;
  esac
  if [[ $command == help || $word == -* ]]; then
    mapfile -t COMPREPLY < <(compgen -W "$words" -- "$word")
  else
    mapfile -t COMPREPLY < <(compgen -f -- "$word")
  fi
}
complete -o filenames -F _srtgw srtgw
