#compdef srtgw
# Completion of srtgw's command line for zsh.
_srtgw() {
  local -a commands help
  commands=(
    'check:how many routes a configuration has, or its first fault'
    'replay:the result of each event of a tape'
    'explain:each line of a tape in words'
    'serve:serve callers for a number of rounds, without a log'
    'run:serve callers until it is stopped'
    'help:the help of a command'
  )
  help='--help[print help]'
  if ((CURRENT == 2)); then
    _describe -t commands command commands
    _arguments $help '--version[print the version]'
    return
  fi
  shift words
  ((CURRENT--))
  case $words[1] in
    check) _arguments $help '--explain[say where each fault is and how to fix it, or warn]' '--addresses[bind its addresses once]' '1:configuration:_files' ;;
    replay) _arguments $help '1:configuration:_files' '2:tape:_files' ;;
    explain) _arguments $help '--output[what replay printed for the tape]:output of replay:_files' '1:tape:_files' ;;
    serve) _arguments $help '--rounds[how many times the socket is polled]:number' '1:configuration:_files' ;;
    run) _arguments $help '--for[stop after this time]:duration:(30s 10m 1h30m 8h 7d)' '--no-time[leave out the time of each line]' '--log[the form of the log]:form:(text json)' '1:configuration:_files' ;;
    help) ((CURRENT != 2)) || _describe -t commands command 'commands[1,-2]' ;;
  esac
}
_srtgw "$@"
