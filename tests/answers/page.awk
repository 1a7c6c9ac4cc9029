# The entries of docs/ANSWERS.md: number, name and constant, and that it tells what was wrong and what to look at first. An entry is a number with its
# name and behind them what was wrong, below it the constant, and from a line that begins with "First:" on what to look at.
function end_entry() {
    if (constant != "") print entry ", " constant (wrong && first ? "" : ", which does not tell what was wrong and what to look at first")
    constant = ""
}
/^```/ { inside = !inside; end_entry(); next }
!inside { next }
{
    left = substr($0, 1, 25)
    right = substr($0, 26)
    sub(/ +$/, "", left)
}
left ~ /^[ 0-9][0-9]  [a-z]/ {
    end_entry()
    sub(/^ /, "", left)
    entry = left
    sub(/  /, " ", entry)
    wrong = right ~ /^[A-Z].*[a-z0-9]/
    first = 0
    constant = "no constant"
    next
}
left ~ /^    NTK_/ { constant = substr(left, 5) }
right ~ /^First: ./ { first = 1 }
