# The links within docs/API.md: each leads to a heading, and each section of a function is linked. Read twice: headings first.
function slug(heading) {
    heading = tolower(heading)
    gsub(/[^a-z0-9 _-]/, "", heading)
    gsub(/ /, "-", heading)
    return heading
}
NR == FNR {
    if (/^##+ /) {
        heading = $0
        sub(/^#+ /, "", heading)
        there[slug(heading)] = 1
        if (heading ~ /^ntk_/) section[slug(heading)] = 1
    }
    next
}
{
    rest = $0
    while (match(rest, /\(#[^)]*\)/)) {
        link = substr(rest, RSTART + 2, RLENGTH - 3)
        rest = substr(rest, RSTART + RLENGTH)
        if (!(link in there)) print "docs/API.md:" FNR ": no heading for #" link
        linked[link] = 1
    }
}
END { for (s in section) if (!(s in linked)) print "docs/API.md: nothing links to #" s }
