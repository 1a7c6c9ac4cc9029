# The kinds of include/nonthachak.h: for each its byte in hex, its name, and who may make it as the header's marks say (T, I, S, run together).
/^enum ntk_kind/ { inside = 1 }
inside && /^};/ { inside = 0 }
inside && /NTK_[A-Z_]+ = 0x/ && !/NTK_INTERRUPT/ {
    marks = $0
    sub(/ *\*\/$/, "", marks)
    if (!match(marks, /  +T( I)?( S)?$/)) {
        print "kinds.awk: who may make it: " $0 >"/dev/stderr"
        exit 1
    }
    marks = substr(marks, RSTART)
    gsub(/ /, "", marks)
    print substr($3, 3, 2), $1, marks
}
