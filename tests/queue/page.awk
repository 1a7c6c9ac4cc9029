# The files of docs/QUEUE.md, written into the folder `room`: a line that begins with a file's name in backquotes and ends with a colon, an empty
# line, and the file's text, indented by four.
/^`[^`]+`.*:$/ {
    split($0, part, "`")
    file = room "/" part[2]
    held = ""
    begun = 0
    next
}
file == "" { next }
/^    / {
    printf "%s%s\n", held, substr($0, 5) >file
    held = ""
    begun = 1
    next
}
/^$/ {
    if (begun) held = held "\n"
    next
}
{ file = "" }
