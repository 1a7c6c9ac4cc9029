# What docs/API.md has to say, in the form of page.awk: from the answers of the header (number, constant), the lines of laws.awk, of
# ../header/functions.awk and of ../header/kinds.awk, in this order, each in a file of its own that the variable `reads` names.
reads == "answers" { constant[$1] = $2 }
reads == "laws" {
    marks[$1] = $2
    answers[$1] = substr($0, length($1 $2) + 3)
}
reads == "functions" {
    split($0, field, /\t/)
    params[field[1]] = field[3]
}
reads == "kinds" {
    byte = $1
    name = tolower($2)
    if (!(byte in marks)) {
        print "kind " byte " of the header is not in the laws"
        next
    }
    if (marks[byte] != $3) print "the header says that " $2 " is for " $3 ", and the laws say " marks[byte]
    print "section " name (marks[byte] ~ /I/ ? ", " name "_isr" : "")
    print "prototype struct ntk_outcome " name "(" params[name] ");"
    if (marks[byte] ~ /I/) print "prototype struct ntk_outcome " name "_isr(" params[name "_isr"] ");"
    print "kind `" $2 "`, " byte "h"
    print "called from a task" (marks[byte] ~ /I/ ? ", an interrupt" : "") (marks[byte] ~ /S/ ? ", start-up" : "")
    count = split(params[name], param, /, uint32_t /)
    for (i = 2; i <= count; i++) print "argument `" param[i] "`"
    count = split(answers[byte], number, / /)
    for (i = 1; i <= count; i++) print "answer " number[i] " `" constant[number[i]] "`"
    print "what changes"
    print "example of " name
    if (marks[byte] ~ /I/) print "example of " name "_isr"
    delete marks[byte]
}
END { for (byte in marks) print "kind " byte " of the laws is not in the header" }
