# Completion of camplot for bash: options, and paths of scripts.
_camplot() {
  local word=${COMP_WORDS[COMP_CWORD]} before=${COMP_WORDS[COMP_CWORD - 1]}
  case $before in
    --depth)
      mapfile -t COMPREPLY < <(compgen -W '1 10 100 1000' -- "$word")
      return
      ;;
  esac
  case $word in
    -*) mapfile -t COMPREPLY < <(compgen -W '- --depth --explain --help --progress --version' -- "$word") ;;
    *) mapfile -t COMPREPLY < <(compgen -f -- "$word") ;;
  esac
}
complete -o filenames -F _camplot camplot
