# What docs/API.md says of each function, a line for each thing: its section, prototypes, kind, who may call, arguments, answers in their order, that
# it tells what changes, and which of its functions the example calls.
function cell(n) {
    gsub(/^ +| +$/, "", field[n])
    return field[n]
}

function end_section(    i) {
    for (i = 1; i <= count; i++) if (name[i] in called) print "example of " name[i]
    count = 0
}

/^##+ / {
    end_section()
    part = ""
}
/^### ntk_/ {
    print "section " substr($0, 5)
    count = split(substr($0, 5), name, /, /)
    split("", called)
    part = "prototypes"
    next
}
count == 0 { next }
/^\*\*What changes\.\*\* ./ { print "what changes" }
/^\*\*Example\.\*\*/ { part = "example" }
/^\*\*Notes\.\*\*/ { part = "" }
/^    / && part == "prototypes" { print "prototype " substr($0, 5) }
/^    / && part == "example" { for (i = 1; i <= count; i++) if (index($0, "= " name[i] "(")) called[name[i]] = 1 }
!/^\|/ { table = ""; next }
/^\|-/ { next }
/^\| (kind|argument|answer) \|/ { table = $2; next }
{ split(substr($0, 2), field, /\|/) }
table == "kind" {
    print "kind " cell(1)
    print "called from " cell(2)
}
table == "argument" { print "argument " cell(1) (cell(2) == "" ? " of which nothing is told" : "") }
table == "answer" { print "answer " cell(1) (cell(2) == "" ? " of which nothing is told" : "") }
END { end_section() }
