# The numbers and names of the rules, as the header has them: out of Broken.antt, include/nonthachak.h or docs/IMAGE.md, by what the line looks like.
# A constructor `task_used` is TASK_USED.
FILENAME ~ /\.antt$/ && match($0, /^  [a-z][a-z_]* : .* Broken t 0x[0-9A-F][0-9A-F] [a-z0]$/) { print $(NF - 1), toupper($1) }
FILENAME ~ /\.h$/ && match($0, /NTK_RULE_[A-Z_]+ = 0x[0-9A-F][0-9A-F]/) {
    split(substr($0, RSTART + 9, RLENGTH - 9), part, " = ")
    print part[2], part[1]
}
FILENAME ~ /\.md$/ && match($0, /^\| 0x[0-9A-F][0-9A-F] \| `NTK_RULE_[A-Z_]+` \|/) {
    name = $4
    gsub(/`|NTK_RULE_/, "", name)
    print $2, name
}
