# What the laws allow each kind: reads crates/rules/specs/Sizes.antt, crates/rules/specs/Kinds.antt and crates/laws/specs/numbers/Numbers.antt, in
# this order, and prints for each kind its byte in hex, who may make it (T a task, I an interrupt, S start-up) and the numbers that it can be
# answered, in the paper's order, each with a space before it.
#
# A row of Numbers.antt is a line `name : condition → .. → RELATION .. CALL`. Its calls are the one that it names, or, where it speaks of any call
# c, those that stand in the relation its condition names. A line that is read in no such way is an error: nothing is passed over.

function refuse(what) {
    print "laws.awk: " FILENAME ", line " FNR ": " what >"/dev/stderr"
    failed = 1
    exit 1
}

# A word that is among the names that `words` lists, or "".
function named(text, words,    count, word, i) {
    gsub(/[(){}]/, " ", text)
    count = split(text, word, / +/)
    for (i = 1; i <= count; i++) if (word[i] in words) return word[i]
    return ""
}

# Whether the word stands in the text.
function speaks(text, word) {
    gsub(/[(){}]/, " ", text)
    return (" " text " ") ~ (" " word " ")
}

# Adds call to the relation, or to a number's calls.
function add(relation, call) {
    member[relation, call] = 1
}

# The calls of a condition that speaks of c: those of each relation that it names, or those that no interrupt may make.
function add_of(relation, condition,    parts, part, i, from, call) {
    if (condition == "for_interrupts c ≡ false") {
        for (call in byte) if (!interrupts[call]) add(relation, call)
        return
    }
    parts = split(condition, part, / ⊎ /)
    for (i = 1; i <= parts; i++) {
        from = part[i]
        sub(/ .*/, "", from)
        if (!(from in relations) || !speaks(part[i], "c")) refuse("a condition that is not understood: " part[i])
        for (call in byte) if ((from, call) in member) add(relation, call)
    }
}

# One row: `conditions` before the last arrow, and who gets what behind it.
function add_row(relation, text, result,    count, condition, i, told, call) {
    call = named(result, byte)
    if (call != "") {
        add(relation, call)
        return
    }
    if (!speaks(result, "c")) refuse("a row of no call: " result)
    count = split(text, condition, / → /)
    for (i = 1; i < count; i++) {
        if (condition[i] ~ /^\{/ || !speaks(condition[i], "c")) continue
        if (told++) refuse("two conditions on the call")
        add_of(relation, condition[i])
    }
    if (!told) for (call in byte) add(relation, call)
}

# ---- Sizes: the numbers of names

FILENAME ~ /Sizes/ && /^[a-z_]+ = [0-9]+$/ { number[$1] = $3 }

# ---- Kinds: the byte of each call, and whether an interrupt may make it. A byte may have a name.

FILENAME ~ /Kinds/ && /^[a-z_]+ = 0x[0-9A-F][0-9A-F]$/ { named_byte[$1] = $3 }
FILENAME ~ /Kinds/ && /^ .*by_(tasks|all) .*λ n\. / {
    call = $0
    sub(/.*λ n\. /, "", call)
    sub(/[ )].*/, "", call)
    spelled = $0
    sub(/.*by_(tasks|all) /, "", spelled)
    sub(/ .*/, "", spelled)
    if (spelled in named_byte) spelled = named_byte[spelled]
    if (spelled !~ /^0x[0-9A-F][0-9A-F]$/) refuse("a kind without a byte: " spelled)
    byte[call] = substr(spelled, 3)
    interrupts[call] = /by_all /
}

# ---- Numbers: the order, the relations, the rows

FILENAME ~ /Numbers/ && /^paper_order =/ { ordering = 1; next }
ordering {
    count = split($0, word, / *∷ */)
    for (i = 1; i <= count; i++) {
        gsub(/ /, "", word[i])
        if (word[i] == "" || word[i] == "[]") continue
        if (!(word[i] in number)) refuse("a number without a value: " word[i])
        order[++ranks] = number[word[i]]
        times[number[word[i]]]++
    }
    if (/\[\]/) ordering = 0
    next
}
FILENAME ~ /Numbers/ && /^pub data / {
    relation = $3
    if (relation != "Thing") relations[relation] = 1
    next
}
/^[^ ]/ { relation = "" }
FILENAME ~ /Numbers/ && relation != "" && relation != "Thing" && /^  [^-]/ {
    text = $0
    if (!sub(/^  [a-z_]+ : /, "", text)) refuse("a row without a name")
    result = text
    sub(/.* → /, "", result)
    if (index(result, relation " ") != 1) refuse("a row that does not end in " relation)
    if (relation != "Gets") {
        add_row(relation, text, result)
        next
    }
    split(result, word, / /)
    if (!(word[4] in number)) refuse("a number without a value: " word[4])
    given[number[word[4]]] = 1
    add_row(number[word[4]], text, substr(result, index(result, word[4]) + length(word[4])))
    rows++
}

END {
    if (failed) exit 1
    # The order has each number from 0 on once, and so those of all rows.
    for (i = 0; i < ranks; i++) given[i] = 1
    for (i in given) if (times[i] != 1) wrong = wrong " " i
    if (ranks == 0 || rows == 0 || wrong != "") {
        print "laws.awk: " ranks + 0 " numbers in the order, " rows + 0 " rows; not once in the order:" (wrong == "" ? " none" : wrong) >"/dev/stderr"
        exit 1
    }
    for (call in byte) {
        line = byte[call] " T" (interrupts[call] ? "I" : "") ((6, call) in member ? "" : "S")
        for (i = 1; i <= ranks; i++) if ((order[i], call) in member) line = line " " order[i]
        print line
    }
}
