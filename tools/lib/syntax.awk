# Makes a syntax file of scripts from tools/forms.txt: for Vim, or for editors that read TextMate
# grammars (`form` is vim or textmate). A line that has none of the forms is shown as an error.

$1 == "form" { forms[++count] = substr($0, 6) }

$1 == "word" {
    group_of[$2] = $3
    pattern_of[$2] = $4
}

END {
    if (form == "vim") write_vim()
    else write_textmate()
}

# A group that isn't numbered begins so. Vim numbers no more than nine, so there none is.
function unnumbered() {
    return form == "vim" ? "%(" : "(?:"
}

# The pattern of a word of a form, as a group of the line, and which kind of word it is.
function word_pattern(word,    many, pattern) {
    many = sub(/\*$/, "", word)
    groups[++group_count] = word in group_of ? group_of[word] : "word"
    pattern = word in pattern_of ? pattern_of[word] : word
    gsub(/\(/, unnumbered(), pattern)
    if (many) return numbered() unnumbered() " +" unnumbered() pattern "))*)"
    return " +" numbered() pattern ")"
}

function numbered() {
    return form == "vim" ? "%(" : "("
}

# The pattern of a whole line of a form. Its groups are in `groups`, the first for its first word.
function line_pattern(text,    n, i, list, pattern, word) {
    group_count = 1
    groups[1] = "event"
    n = split(text, list, " ")
    pattern = "^ *" numbered() list[1] ")"
    for (i = 2; i <= n; i++) {
        word = list[i]
        if (sub(/^\[/, "", word)) pattern = pattern unnumbered()
        if (sub(/\]$/, "", word)) pattern = pattern word_pattern(word) "){0,1}"
        else pattern = pattern word_pattern(word)
    }
    return pattern " *" carriage_return() "{0,1}$"
}

# A carriage return, which may stand at the end of a line, as the file writes it.
function carriage_return() {
    return form == "vim" ? "\\r" : "\\\\r"
}

function write_vim(    i) {
    print "\" Syntax of gbus scripts, made by tools/syntax from tools/forms.txt."
    print "if exists('b:current_syntax')"
    print "  finish"
    print "endif"
    print "syntax match gbusError /\\v^.*[^ " carriage_return() "].*$/"
    for (i = 1; i <= count; i++) {
        print "syntax match gbusLine /\\v" line_pattern(forms[i]) "/ contains=@gbusWord"
    }
    print "syntax match gbusComment /\\v^ *#.*$/"
    print "syntax match gbusHex /\\v<[0-9A-Fa-f]+>|-/ contained"
    print "syntax match gbusNumber /\\v<[0-9]+>/ contained"
    print "syntax match gbusName /\\v[@][a-z0-9]+/ contained"
    print "syntax match gbusOp /\\v<[rwx]:/ contained"
    print "syntax match gbusKey /\\v<%(" literal_words() ")>/ contained"
    print "syntax match gbusEvent /\\v^ *[a-z0-9]+/ contained"
    print "syntax cluster gbusWord contains=gbusHex,gbusNumber,gbusName,gbusOp,gbusKey,gbusEvent"
    print "highlight default link gbusError Error"
    print "highlight default link gbusComment Comment"
    print "highlight default link gbusEvent Statement"
    print "highlight default link gbusKey Keyword"
    print "highlight default link gbusName Identifier"
    print "highlight default link gbusNumber Number"
    print "highlight default link gbusHex Constant"
    print "highlight default link gbusOp Operator"
    print "let b:current_syntax = 'gbus'"
}

# The words of forms that stand as they are, behind the first, and those of the group `word`.
function literal_words(    i, j, k, n, m, list, word, words, seen, text) {
    text = ""
    for (i = 1; i <= count; i++) {
        n = split(forms[i], list, " ")
        for (j = 2; j <= n; j++) {
            gsub(/[][*]/, "", list[j])
            word = list[j]
            if (word in group_of && group_of[word] == "word") word = pattern_of[word]
            m = word in group_of ? 0 : split(word, words, "|")
            for (k = 1; k <= m; k++) {
                if (!seen[words[k]]++) text = text (text == "" ? "" : "|") words[k]
            }
        }
    }
    return text
}

function write_textmate(    i, scope) {
    print "{"
    print "  \"name\": \"gbus script\","
    print "  \"comment\": \"Made by tools/syntax from tools/forms.txt.\","
    print "  \"scopeName\": \"source.gbus\","
    print "  \"fileTypes\": [\"gbus\"],"
    print "  \"patterns\": ["
    print "    { \"name\": \"comment.line.number-sign.gbus\", \"match\": \"^ *#.*$\" },"
    for (i = 1; i <= count; i++) write_match(line_pattern(forms[i]))
    print "    { \"name\": \"invalid.illegal.gbus\", \"match\": \"^.*[^ " carriage_return() \
        "].*$\" }"
    print "  ]"
    print "}"
}

function write_match(pattern,    i) {
    print "    {"
    print "      \"match\": \"" pattern "\","
    print "      \"captures\": {"
    for (i = 1; i <= group_count; i++) {
        print "        \"" i "\": { \"name\": \"" scope_of(groups[i]) ".gbus\" }" \
            (i < group_count ? "," : "")
    }
    print "      }"
    print "    },"
}

function scope_of(group) {
    if (group == "event") return "keyword.control"
    if (group == "word") return "support.constant"
    if (group == "name") return "variable.other"
    if (group == "number") return "constant.numeric"
    if (group == "hex") return "constant.other.hex"
    return "string.other.op"
}
