# What bash offers behind words of gbus. `|` is before the word that is begun.

. tools/completion/gbus.bash
for line in '|' '|d' '|dr' 'run |' 'run |--' 'share |' 'drive |' 'drive 7 |' 'rum |'; do
    echo "gbus $line"
    begun=${line#*|}
    read -ra COMP_WORDS <<<"bin/gbus ${line%|*}"
    COMP_WORDS+=("$begun")
    COMP_CWORD=$((${#COMP_WORDS[@]} - 1))
    _gbus bin/gbus "$begun"
    for word in "${COMPREPLY[@]}"; do
        echo "  $word"
    done
done
