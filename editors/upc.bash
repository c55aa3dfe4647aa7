# Completion for upc, outcomes, try, why, story, traffic, draw and pre: `source editors/upc.bash`; in zsh after
# `autoload -U compinit && compinit` and `autoload -U bashcompinit && bashcompinit`.

# Takes what compgen gives with these words, one in each line.
_upc_takes() {
  local line
  while IFS= read -r line; do COMPREPLY+=("$line"); done < <(compgen "$@" -- "$now")
}

# Takes the folders, and the files that end so, whose names begin with the word.
_upc_takes_files() {
  local file
  [ -z "${ZSH_VERSION:-}" ] || setopt local_options null_glob
  for file in "$now"*; do
    if [ -d "$file" ]; then
      COMPREPLY+=("$file${ZSH_VERSION:+/}")
    elif [ -e "$file" ] && [[ $file == *$1 ]]; then
      COMPREPLY+=("$file")
    fi
  done
  compopt -o filenames 2>/dev/null || true
}

_upc() {
  local now=${COMP_WORDS[COMP_CWORD]} before=${COMP_WORDS[COMP_CWORD - 1]} words="-T --budget --actions" moded=""
  local name word
  name=$(basename "${COMP_WORDS[0]}")
  COMPREPLY=()
  case $name in
    upc | why | try)
      for word in "${COMP_WORDS[@]:1:$((COMP_CWORD - 1))}"; do
        case $word in run | record | races | replica | check | layout | sample) moded=1 ;; verify) moded=2 ;; esac
      done
      ;;
    story | traffic | draw) moded=1 words="$words --record" ;;
    outcomes) moded=1 words="$words --schedules --seed --all --picks --record" ;;
    pre) moded=1 words="-D" ;;
  esac
  case $name$before in
    *-T) _upc_takes -W "1 2 4 8 16 32" && return ;;
    *--budget) _upc_takes -W "1000000 100000000" && return ;;
    *--actions) _upc_takes -W "1000 8192" && return ;;
    outcomes--schedules) _upc_takes -W "1000 100000" && return ;;
    outcomes--seed | outcomes--all | outcomes--picks) return ;;
    story--record | traffic--record | draw--record) _upc_takes_files "" && return ;;
  esac
  if [[ $now == -* ]]; then
    _upc_takes -W "$words"
  elif [ -z "$moded" ]; then
    _upc_takes -W "run record races replica check layout sample verify"
  elif [ "$moded" = 2 ] && [[ $before == *.upc ]]; then
    _upc_takes_files ""
  else
    _upc_takes_files .upc
  fi
}

complete -F _upc upc outcomes try why story traffic draw pre
