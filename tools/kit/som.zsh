#compdef som
# Completion for zsh: the commands of som, their flags, and files whose names end as a command takes them.

local -a commands
commands=(
@DESCRIBED@
)

if (( CURRENT == 2 )); then
  _describe 'command' commands
  return
fi

case $words[2] in
  library)
    if (( CURRENT == 3 )); then _files; else _files -g '*.(idl|bod)'; fi ;;
  client)
    if (( CURRENT <= 4 )); then _files; else _files -g '*.(idl|bod|main)'; fi ;;
  run)
    if (( CURRENT <= 4 )); then
      _files
    elif [[ $words[CURRENT-1] != --fuel ]]; then
      local -a flags
      flags=('--fuel:units that the run may take' '--trace:shows each call, or those of a class')
      _describe 'flag' flags
    fi ;;
  tower)
    if (( CURRENT == 3 )); then compadd make check run; else _files; fi ;;
  generate) _message 'number of classes' ;;
  *) _files ;;
esac
