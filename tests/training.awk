# Reads docs/TRAINING.md, and the files that it names as it names them. The quotation of step 4 is its rows one after the other; in each row the
# lines of definition and code stand in their file under the numbers given, the numbers rise, and the comment that comes next above
# them has the row's sentence; each row of the worked table says of its bytes what they are, and is an example of `Worked`, and each example is a
# row. Prints what is wrong; the last line says how many things were asked and how many are wrong.
function ask(holds, text) {
    asked++
    if (holds) return
    print "docs/TRAINING.md: " text
    wrong++
}
function trimmed(text) {
    gsub(/^ +| +$/, "", text)
    return text
}
function load(file,    n, line) {
    if (file in lines) return
    while ((getline line < file) > 0) source[file, ++n] = line
    close(file)
    lines[file] = n + 0
}
# the comment that comes next above a line, its lines joined
function comment(file, at,    text, line) {
    while (at > 0 && source[file, at] !~ /^ *(--|\/\/) /) at--
    for (; at > 0 && source[file, at] ~ /^ *(--|\/\/) /; at--) {
        line = source[file, at]
        sub(/^ *(--|\/\/) /, "", line)
        text = text == "" ? line : line " " text
    }
    return text
}
# lines of a file, trimmed and joined
function joined(file, at, to,    text) {
    for (; at <= to; at++) text = text (text == "" ? "" : " ") trimmed(source[file, at])
    return text
}
# a cell: a line with its number, or several with their first and last
function judge(file, text, sentence,    at, to, quoted) {
    load(file)
    text = trimmed(text)
    ask(match(text, /^[0-9]+( to [0-9]+)? `[^`]+`$/), "no lines of " file ", or more than that, for: " sentence)
    at = text + 0
    to = text ~ /^[0-9]+ to / ? substr(text, index(text, " to ") + 4) + 0 : at
    quoted = text
    sub(/^[^`]*`/, "", quoted)
    sub(/`$/, "", quoted)
    ask(joined(file, at, to) == quoted, file ":" at " is not " quoted)
    ask(at >= last[file], file ":" at " stands before the row above it")
    ask(index(comment(file, at), sentence) > 0, file ":" at " does not have above it: " sentence)
    last[file] = to
}
function words(cell, n, word) {
    gsub(/`/, "", cell)
    ask(split(trimmed(cell), word, ", ") == n, "a cell of another length than its row: " cell)
}
function truth(word, yes, no) {
    ask(word == yes || word == no, "no such word: " word)
    return word == yes ? "true" : "false"
}
# what is to be said of a packet by its bytes: another control than 01, a wrong length, length 0, a set indicator or one that counts as 0
function said(byte,    control, length_right, flag) {
    control = substr(byte[1], 1, 1)
    if (control == "1") return ""
    length_right = control == "2" ? byte[2] == "b7" : byte[2] < "b7"
    flag = byte[3] >= "80"
    if (!length_right) return "wrong length, control 1" (control - 2) (flag ? "; an indicator counts as 0" : "")
    if (byte[2] == "00") return "length 0: no indicator"
    return control == "2" ? "control 10" : flag ? "the indicator set" : "control 11"
}
# a row of the worked table, as the example's statement; its counters and what it says are those of the bytes
function statement(    n, i, j, k, bytes, byte, after, event, section, payload, left, right, counters, told) {
    n = split(trimmed(cell[4]), bytes, ", ")
    words(cell[4], n, bytes)
    words(cell[5], n, after)
    words(cell[6], n, event)
    words(cell[7], n, section)
    words(cell[8], n, payload)
    for (i = 1; i <= n; i++) {
        split("", byte)
        k = split(bytes[i], byte, " ")
        left = left "("
        for (j = 1; j <= k; j++) left = left "0x" byte[j] " ∷ "
        left = left "[]) ∷ "
        right = right "left " after[i] " " truth(event[i], "0x000E", "–") " " truth(section[i], "kept", "dropped") " " truth(payload[i], "taken", "not taken") " ∷ "
        counters = counters (i > 1 ? " " : "") (index("0123456789abcdef", substr(byte[1], 2)) - 1)
        told = told said(byte)
    }
    ask(trimmed(cell[2]) == counters, "other counters than " counters ": " cell[2])
    ask(trimmed(cell[3]) == told, "other bytes than those of " cell[3] ": " told)
    return "from_unseen (" left "[]) ≡ " right "[]"
}
/^> / { step = step (step == "" ? "" : " ") substr($0, 3) }
/^\|/ {
    gsub(/\\\|/, "\001")
    n = split($0, cell, "|")
    for (i = 1; i <= n; i++) gsub(/\001/, "|", cell[i])
    if (cell[3] ~ /`[^`]*\/specs\//) { # the head of a table: definitions, code
        split(cell[3], piece, "`")
        definitions = "crates/" piece[2]
        split(cell[4], piece, "`")
        code = "crates/" piece[2]
        worked = 0
        next
    }
    if (/Proved as/) {
        ask($0 == "| Counters | With | Bytes 4 to 6 | Table byte | Event | Half-built section | Payload | Proved as |", "another head: " $0)
        worked = 1
        next
    }
    if (cell[2] ~ /^-+$/) next
    if (worked) {
        split(cell[9], piece, "`")
        ask(!(piece[2] in rows), "a row twice: " piece[2])
        rows[piece[2]] = statement()
        next
    }
    sentence = trimmed(cell[2])
    sentences = sentences (sentences == "" ? "" : " ") sentence
    judge(definitions, cell[3], sentence)
    judge(code, cell[4], sentence)
}
END {
    sub(/^4\. Continuity\. /, "", step)
    ask(step != "" && step == sentences, "the rows are not the step:\n" step "\n" sentences)
    examples = "crates/continuity/proofs/Examples.antt"
    load(examples)
    for (i = 1; i <= lines[examples]; i++) {
        if (source[examples, i] == "pub worked : Worked") proved_table = 1
        if (source[examples, i] ~ /^[^ ]/) inside = source[examples, i] ~ /^pub record Worked /
        if (!inside || source[examples, i] !~ /^  pub /) continue
        split(source[examples, i], piece, " ")
        proved[piece[2]] = 1
        ask(source[examples, i] == "  pub " piece[2] " : " rows[piece[2]], "not as proved: " piece[2] " : " rows[piece[2]])
    }
    ask(proved_table, examples " does not prove `Worked`")
    for (name in rows) ask(name in proved, "no such example: " name)
    print asked + 0, wrong + 0
}
