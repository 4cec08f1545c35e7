# What zsh offers after words that were typed: zsh -f offered.zsh FOLDER WORDS .., with the completions in FOLDER. For each of WORDS
# what is offered stands one a line, and after it an empty line.
#
# A shell in a terminal of its own completes. Each word that a completion adds is told in a line, in place of being shown. The shell's
# own completions are not looked through, which would take a second.
zmodload zsh/zpty
zpty shell zsh -f -i
zpty -w shell "
  PROMPT= RPROMPT= all=(\$fpath)
  autoload -Uz +X compinit compaudit compdump compinstall
  fpath=(${(q)1}) && compinit -u -D
  fpath+=(\$all) && autoload -Uz \$^all/_*(N:t)
  stty -onlcr -echo
  compadd() {
    if [[ \${@[1,(i)(-|--)]} == *-(O|A|D)\ * ]]; then
      builtin compadd \"\$@\"
      return
    fi
    local -a added
    builtin compadd -A added \"\$@\"
    print -rl -- OFFERED:\$^added
  }
  offers() {
    zle complete-word
    zle kill-whole-line
    print -r -- E''ND
  }
  zle -N offers
  zstyle ':completion:*' list-grouped false
  zstyle ':completion:*' insert-tab false
  bindkey '^I' offers
  print -r -- REA''DY
"
zpty -m -r shell found '*READY*'
for words in "${@:2}"; do
  zpty -w -n shell "$words"$'\t'
  zpty -m -r shell found '*END*'
  # (the first of them stands behind the words that were typed)
  print -rl -- ${${(M)${(f)${found//$'\r'/}}:#*OFFERED:?*}#*OFFERED:} ''
done
zpty -d shell
