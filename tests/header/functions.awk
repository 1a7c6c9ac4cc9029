# The functions of include/nonthachak.h that give an outcome: for each its name, the kind that it hands on ("-" for ntk_step and ntk_serve) and
# its parameters, with tabs between.
BEGIN { OFS = "\t" }
/^([^ ].* )?struct ntk_outcome ntk_[a-z_]+\(/ {
    name = $0
    sub(/\(.*/, "", name)
    sub(/.* /, "", name)
    head = substr($0, index($0, "(") + 1)
    while (head !~ /\)/ && (getline line) > 0) {
        sub(/^ */, " ", line)
        head = head line
    }
    params = head
    sub(/\).*/, "", params)
    if (head ~ /;$/) print name, "-", params
    next
}
/NTK_CALL\(/ && name != "" {
    kind = $0
    sub(/.*NTK_CALL\(/, "", kind)
    sub(/,.*/, "", kind)
    print name, kind, params
    name = ""
}
