# Completion for bash: the forms of `lspace`, and the options of its companions, `lspace-shell` and
# so on. tools/install puts it where bash-completion finds it; else a shell sources it.

# The files of this folder that `--script` can name, and that begin with this.
_lspace_files() {
  local it
  for it in *; do
    if [[ -f $it && $it =~ ^[A-Za-z0-9_-][A-Za-z0-9_.-]{0,63}$ && $it == "$1"* ]]; then
      COMPREPLY+=("$it")
    fi
  done
}

# The words that can follow in one of the three forms. Behind `<` or `>` stands any file.
_lspace() {
  local LC_ALL=C word=${COMP_WORDS[COMP_CWORD]} before=("${COMP_WORDS[@]:1:COMP_CWORD-1}") next=
  COMPREPLY=()
  case "${before[*]}" in
    *[\<\>]) compopt -o default 2> /dev/null ;;
    '') next='--script --drill --number' ;;
    --script) _lspace_files "$word" ;;
    '--drill '*[0-9]) [ "${#before[@]}" != 2 ] || next=--number ;;
    '--number '*[0-9]) [ "${#before[@]}" != 2 ] || next=--drill ;;
  esac
  [ -z "$next" ] || COMPREPLY=($(compgen -W "$next" -- "$word"))
}

# What the companion's own help names: its options, and where words are chosen from a few, these.
# Otherwise a file stands there.
_lspace_companion() {
  local word=${COMP_WORDS[COMP_CWORD]} before=${COMP_WORDS[COMP_CWORD-1]} help next=
  COMPREPLY=()
  help=$("${COMP_WORDS[0]}" --help 2> /dev/null < /dev/null) || return 0
  if [[ $word == -* ]]; then
    next=$(grep -oE '^  (-h, )?--[a-z0-9-]+' <<< "$help" | grep -oE -e '--[a-z0-9-]+')
  elif [[ $before == --* && $help =~ "  $before "\{([a-z0-9,]+)\} ]]; then
    next=${BASH_REMATCH[1]//,/ }
  elif [[ $COMP_CWORD == 1 && $help =~ $'\n  '\{([a-z,]+)\} ]]; then
    next=${BASH_REMATCH[1]//,/ }
  fi
  [ -z "$next" ] || COMPREPLY=($(compgen -W "$next" -- "$word"))
}

complete -F _lspace lspace
complete -o default -F _lspace_companion \
  lspace-{assess,draw,explain,interview,kst,made-class,report,shell,uninstall}
