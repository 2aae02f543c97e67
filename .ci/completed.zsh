# What zsh makes of a line when the tab key is pressed at its end, with this folder first among those of functions: FOLDER LINE
#
# The shell that is asked has a terminal of its own, as completions need one; it prints the line that it has then between < and >.
zmodload zsh/zpty
zpty shell zsh -f -i
zpty -w shell "PROMPT= RPROMPT=; fpath=(${(q)1} \$fpath); autoload -Uz compinit; compinit -u -D; bindkey -e; print ready"
zpty -r -m shell line '*ready*ready*'
zpty -w -n shell "$2"$'\t\C-aprint -r -- "<" \C-e">"\n'
zpty -r -m shell line $'*\n< *>*'
print -r -- ${${${line##*$'\n'< }%%>*}% }
