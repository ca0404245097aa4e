# bash completion for tcpsim and the tools beside it. What a function leaves open bash completes itself as the
# name of a file (`complete -o default`), behind `<` and as a word.
_tcpsim() {
  local word=${COMP_WORDS[COMP_CWORD]} before=${COMP_WORDS[COMP_CWORD - 1]}
  COMPREPLY=()
  case $before in '<' | '>' | '>>' | '>|' | '2>') return ;; esac
  case $word in '<'* | '>'*) return ;; esac
  if [ "$COMP_CWORD" = 1 ]; then
    COMPREPLY=($(compgen -W 'asm dis run figures debug explain --help --version -h -V' -- "$word"))
    return
  fi
  # readline parts `--groups=each` at the sign.
  if [ "$before" = = ]; then before=${COMP_WORDS[COMP_CWORD - 2]}; fi
  if [ "$word" = = ]; then word=; fi
  local flags=
  case ${COMP_WORDS[1]} in run) flags=' --progress --explain' ;; debug) flags=' --explain' ;; esac
  case ${COMP_WORDS[1]} in
    explain) COMPREPLY=($(compgen -W "$(_tcpsim_codes) --help -h" -- "$word")) ;;
    asm | dis) COMPREPLY=($(compgen -W '--explain --help -h' -- "$word")) ;;
    figures) COMPREPLY=($(compgen -W '--from --every --series --names --progress --explain --help -h' -- "$word")) ;;
    run | debug) case $before in
      --workers) COMPREPLY=($(compgen -W '1 2 4 8 16 32 64' -- "$word")) ;;
      --groups) COMPREPLY=($(compgen -W 'one each auto' -- "$word")) ;;
      *) COMPREPLY=($(compgen -W "--workers --groups$flags --help -h" -- "$word")) ;;
    esac ;;
  esac
}

# The codes that there are to explain.
_tcpsim_codes() {
  "${COMP_WORDS[0]}" explain 2>/dev/null </dev/null | sed 's/:.*//'
}

# The options that a command's help lists.
_tcpsim_options() {
  "$@" --help 2>/dev/null </dev/null | sed -n 's/^  \(-.*\)/\1/p' | sed 's/  .*//' | tr ', ' '\n\n' | grep '^-'
}

# Words of a tool: its options, and the shapes of tcpsim-net; all else is a file.
_tcpsim_tool() {
  local word=${COMP_WORDS[COMP_CWORD]} before=${COMP_WORDS[COMP_CWORD - 1]} tool=${COMP_WORDS[0]} shape=
  tool=${tool/#\~\//$HOME/}
  COMPREPLY=()
  case $before in '<' | '>' | '>>' | '>|' | '2>') return ;; esac
  case $word in '<'* | '>'*) return ;; esac
  if [ "${tool##*/}" = tcpsim-net ]; then
    if [ "$COMP_CWORD" = 1 ] && [ "${word#-}" = "$word" ]; then
      COMPREPLY=($(compgen -W "$("$tool" --help 2>/dev/null </dev/null | sed -n 's/^    \([a-z][a-z-]*\)\( .*\)\{0,1\}$/\1/p')" -- "$word"))
      return
    fi
    if [ "$COMP_CWORD" -gt 1 ]; then shape=${COMP_WORDS[1]}; fi
  fi
  case $word in -*) COMPREPLY=($(compgen -W "$(_tcpsim_options "$tool" ${shape:+"$shape"})" -- "$word")) ;; esac
}

complete -o default -F _tcpsim tcpsim
complete -o default -F _tcpsim_tool tcpsim-run tcpsim-debug tcpsim-model tcpsim-flows tcpsim-plot tcpsim-net tcpsim-sweep tcpsim-find \
  tcpsim-follow tcpsim-stalls tcpsim-time tcpsim-diff tcpsim-replay
