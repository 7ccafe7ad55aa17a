# Completes the words of index-tool in bash. Made by docs/words of tools/words.py.
_index_tool() {
  local word=${COMP_WORDS[COMP_CWORD]} words="sha1 sha256" before=0 last=1 it
  for it in "${COMP_WORDS[@]:2:COMP_CWORD-2}"; do
    case $it in
      sha1 | sha256) words= ;;
      -?*) ;;
      *) before=$((before + 1)) words= ;;
    esac
  done
  case ${COMP_WORDS[1]} in
    rewrite | rewrite4 | rewrite-trees | salvage) last=2 ;;
    help) last=0 words="list check check-trees map map-svg show show-json trees rewrite rewrite4 rewrite-trees update salvage" ;;
  esac
  if [ "$COMP_CWORD" -eq 1 ]; then
    words="list check check-trees map map-svg show show-json trees rewrite rewrite4 rewrite-trees update salvage help --help --version"
  elif [[ $word == -* ]]; then
    words='--auto --help'
    case ${COMP_WORDS[1]} in list) words+=' -z --quote' ;; check) words+=' --strict' ;; check-trees) words+=' --strict' ;; map) words+=' -z --quote' ;; trees) words+=' -z --quote' ;; rewrite) words+=' --keep' ;; rewrite4) words+=' --keep' ;; rewrite-trees) words+=' --missing-ok' ;; update) words+=' -z' ;; salvage) words+=' --all' ;; esac
  elif [ "$before" -lt "$last" ]; then
    compopt -o default
  fi
  mapfile -t COMPREPLY < <(compgen -W "$words" -- "$word")
}
complete -F _index_tool index-tool
