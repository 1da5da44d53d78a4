# Completion of shim, shim-see and shim-draw for bash.

_shim() {
  local word=${COMP_WORDS[COMP_CWORD]} before=${COMP_WORDS[COMP_CWORD-1]} tool=${COMP_WORDS[0]##*/}
  local modes='run ref why check code up gen trace replay batch'
  local options='--input --workers --budget --quantum --size --journal --steal'
  local plain=() skip=0 i
  if [[ $tool = shim-draw ]]; then
    modes='run why' options='--input --budget --output --help'
    # A graph of waits is of the whole run, and of no journal.
    [[ " ${COMP_WORDS[*]} " = *' why '* ]] || options+=' --journal --from --to --channels'
  fi
  [[ $tool = shim-see ]] && options+=' --raw --help --version'
  # `--workers=4` stands in three words, since bash parts words at the sign.
  if [[ $before = '=' ]]; then before=${COMP_WORDS[COMP_CWORD-2]}
  elif [[ $word = '=' ]]; then word=
  fi
  case $before in
    --input | --journal | --output) mapfile -t COMPREPLY < <(compgen -f -- "$word"); compopt -o filenames; return ;;
    --workers) mapfile -t COMPREPLY < <(compgen -W '1 2 4 8 16' -- "$word"); return ;;
    --budget) mapfile -t COMPREPLY < <(compgen -W '1000 100000 1000000 4000000' -- "$word"); return ;;
    --quantum) mapfile -t COMPREPLY < <(compgen -W '1 64 10000' -- "$word"); return ;;
    --size) mapfile -t COMPREPLY < <(compgen -W '100 1000 10000 100000' -- "$word"); return ;;
    --from | --to | --channels) COMPREPLY=(); return ;;
  esac
  if [[ $word = -* ]]; then
    mapfile -t COMPREPLY < <(compgen -W "$options" -- "$word")
    return
  fi
  for ((i = 1; i < COMP_CWORD; i++)); do
    case ${COMP_WORDS[i]} in
      --) ;;
      '=') skip=1 ;;
      --raw | --steal) ;;
      -*) skip=1 ;;
      *) if ((skip)); then skip=0; else plain+=("${COMP_WORDS[i]}"); fi ;;
    esac
  done
  case ${#plain[@]} in
    0) mapfile -t COMPREPLY < <(compgen -W "$modes" -- "$word") ;;
    1)
      if [[ ${plain[0]} = gen ]]; then
        mapfile -t COMPREPLY < <(compgen -W 'pipe tree storm' -- "$word")
      else
        mapfile -t COMPREPLY < <(compgen -f -X '!*.shim' -- "$word"; compgen -d -- "$word")
        compopt -o filenames
      fi ;;
    *)
      if [[ ${plain[0]} = batch ]]; then
        mapfile -t COMPREPLY < <(compgen -f -- "$word"); compopt -o filenames
      else
        mapfile -t COMPREPLY < <(compgen -W "$options" -- "$word")
      fi ;;
  esac
}

complete -F _shim shim shim-see shim-draw
