# What zsh offers behind words of gbus. `|` is before the word that is begun. sh runs this in zsh, or
# writes what is stored where zsh isn't here.
if [ -z "$ZSH_VERSION" ]; then
    command -v zsh >/dev/null || exec cat tools/cases/zsh.completed
    exec zsh -f "$0"
fi

# The words with their texts that begin so, in place of zsh's own choice.
_describe() {
    local each
    for each in "${(@P)2}"; do
        [[ $each != "$begun"* ]] || print -r -- "  $each"
    done
}

# The files of the folder, where none of the words of gbus may come.
_files() {
    print '  files'
}

_gbus() {
    source tools/completion/_gbus
}

for line in '|' '|d' '|dr' 'run |' 'run |--' 'share |' 'drive |' 'drive 7 |' 'rum |'; do
    print -r -- "gbus $line"
    begun=${line#*|}
    words=(bin/gbus ${=line%|*} "$begun")
    CURRENT=$#words
    _gbus
done
