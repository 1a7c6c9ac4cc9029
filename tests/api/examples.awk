# The examples of docs/API.md as a C file: a function for each, from the fresh table. `o = CALL; /* ANSWER, task N runs */` and `n = CALL; /* NUMBER */`
# are checked by what the comment says; an example has no other lines.
function refuse(what) {
    print "examples.awk: line " NR ": " what ": " $0 >"/dev/stderr"
    failed = 1
    exit 1
}
BEGIN { print "#include \"expect.h\"\n" }
/^##+ / {
    if (open) print "}\n"
    open = inside = 0
}
/^\*\*Notes/ { inside = 0 }
/^\*\*Example\.\*\*/ {
    inside = open = 1
    print "static void example_" ++examples "(void)\n{\n    make_fresh();"
}
inside && /^    / {
    if (!match($0, /; *\/\* /)) refuse("a line without a comment")
    call = substr($0, 1, RSTART)
    told = substr($0, RSTART + RLENGTH)
    print call
    if (call ~ /^    o = / && told ~ /^[0-9]+, (none|task [0-9]+) runs[:, ]/) {
        split(told, word, / /)
        runs = word[2] == "none" ? 0 : word[3] + 1
        print "    expect_outcome(" NR ", o, " word[1] + 0 ", " runs ");"
    } else if (call ~ /^    n = / && told ~ /^[0-9]+[: ]/) {
        print "    expect_number(" NR ", n, " told + 0 ");"
    } else refuse("neither o = with an answer and who runs, nor n = with a number")
}
END {
    if (failed) exit 1
    if (open) print "}\n"
    print "int main(void)\n{"
    for (i = 1; i <= examples; i++) print "    example_" i "();"
    print "    return tell(" examples + 0 ");\n}"
}
