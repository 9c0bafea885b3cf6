# Reads files of definitions. Each public name of a file stands in the glossary at its head, each name of a glossary is a name of its file,
# and no name is defined in two files. Prints what is wrong; the last line says how many names and how many faults there are.
function tell(text) {
    print text
    faults++
}
function close_file(    i, j, k, n, piece, word, from, to) {
    if (file == "") return
    for (i = 1; i <= entries; i++) {
        n = split(entry[i], piece, ", ")
        for (j = 1; j <= n; j++) {
            if (split(piece[j], word, " ") >= 3 && word[2] == "..") { # the first to the last in the order of the file
                from = place[word[1]]
                to = place[word[3]]
                if (!from || !to) tell(file ": no such names: " piece[j])
                if (from > to) { k = from; from = to; to = k }
                for (k = from; from && k <= to; k++) told[name[k]] = 1
            } else if (word[1] in place) told[word[1]] = 1
            else if (!(word[1] in part)) tell(file ": the glossary has a name that is not there: " word[1])
        }
    }
    for (k = 1; k <= names; k++) {
        if (!(name[k] in told)) tell(file ": not in the glossary: " name[k])
        if (name[k] in home) tell(file ": a name of " home[name[k]] " too: " name[k])
        home[name[k]] = file
    }
    all += names
    split("", place); split("", part); split("", told); split("", entry); split("", name)
    names = entries = 0
}
FNR == 1 {
    close_file()
    file = FILENAME
    head = 1
}
!/^--/ { head = 0 }
head && /^--   [^ ].* == / {
    left = substr($0, 6)
    sub(/ +== .*/, "", left)
    entry[++entries] = left
}
/^ *(abbrev|unfoldable) pub [^ ]+ :/ || /^ *pub (record|data) / {
    name[++names] = $3
    place[$3] = names
    next
}
/^  (pub )?[^ ]+ :/ { part[$1 == "pub" ? $2 : $1] = 1 }
/^use .*\.declared\.[A-Za-z]+\.\{/ { # a struct or an enum of the code
    word0 = $0
    sub(/.*\.declared\./, "", word0)
    sub(/\..*/, "", word0)
    part[word0] = 1
}
END {
    close_file()
    print all + 0, faults + 0
}
