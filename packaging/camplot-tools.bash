# Completion of the tools of camplot for bash: their options, the words that these take, files and folders.
# Made by tools/tests/packaged.js of the tables of the tools' options.
_camplot_tool() {
  local word=${COMP_WORDS[COMP_CWORD]} before=${COMP_WORDS[COMP_CWORD - 1]} options= words=(-f)
  COMPREPLY=()
  case $1 in
    camplot-board) options='--camplot --dpi --edits --finish --help --json --mask --out --page --pitch --replace --version' ;;
    camplot-compare) options='--camplot --dpi --help --html --json --out --pitch --replace --version' ;;
    camplot-fit) options='--camplot --dpi --help --json --links --out --pitch --replace --version' ;;
    camplot-items) options='--apertures --at --help --json --only --out --replace --version --whole' ;;
    camplot-nets) options='--accept --accepted --camplot --copper --dpi --edits --gap --help --ipc --json --may-touch --neck --out --partial --pictures --pitch --replace --role --rule --rules --shift --twice --version' ;;
    camplot-panel) options='--camplot --columns --dpi --help --json --out --pitch --rail --replace --rows --spacing --step --version' ;;
    camplot-to-gerber) options='--arcs --camplot --format --help --json --nearest --out --repeat --replace --unit --version --zeros' ;;
    camplot-to-xnc) options='--camplot --format --help --json --out --replace --report --tool --unit --version --zeros' ;;
  esac
  case $before in
    --mask) words=(-W 'green red blue black white purple yellow') ;;
    --finish) words=(-W 'tin gold copper') ;;
    --only) words=(-W 'flash draw arc region repeat hit rout') ;;
    --unit) words=(-W 'mm inch') ;;
    --zeros) words=(-W 'leading trailing') ;;
    --arcs) words=(-W 'single multi') ;;
    --links | --pictures) words=(-d) ;;
    --edits | --page | -o | --out | --camplot | --html | --ipc | --rules | --accepted | --report) words=(-f) ;;
    --dpi | --pitch | --at | --shift | --rule | --may-touch | --accept | --role | --gap | --neck | --columns | --rows | --step | --spacing | --rail | --format | --tool) return ;;
    *) [[ $word != -* ]] || words=(-W "$options") ;;
  esac
  mapfile -t COMPREPLY < <(compgen "${words[@]}" -- "$word")
}
complete -o filenames -F _camplot_tool camplot-board camplot-compare camplot-fit camplot-items camplot-nets camplot-panel camplot-to-gerber camplot-to-xnc
