# Reads what declared.awk tells, then docs/PROMISES.md: each row `| files and names | lines | signatures | what |` of the definitions to believe
# must have the lines that its declarations have, a row `all` the sums of the rows above it, and the sentence `In all they are ..` the sums of all tables
# but the last, of what checks the definitions. Says what differs.
BEGIN { FS = "\t" }
NR == FNR { lines[$1, $2] += $3; signature[$1, $2] += $4; names[$1] = names[$1] " " $2; next }
/^## / { believing = /^## What a reader has to believe/ }
believing && /^[*][*]/ { counted = !/^[*][*]What checks/ }
believing && match($0, /In all they are [0-9,]+ lines/) { stated = substr($0, RSTART + 16, RLENGTH - 22); gsub(",", "", stated) }
!believing || !/^\| .* \| [0-9]+ \| [0-9]+ \| / { if (!/^\|/) sum = sums = 0; next }
{
    split($0, cell, " [|] ")
    sub(/^[|] /, "", cell[1])
    if (cell[1] == "all") { n = sum; k = sums; if (counted) all += n }
    else {
        n = k = 0
        parts = split(cell[1], part, "; ")
        for (i = 1; i <= parts; i++) add(part[i])
        sum += n
        sums += k
    }
    if (n != cell[2] || k != cell[3]) { print "docs/PROMISES.md: " cell[1] ": " n " lines, " k " of signatures"; wrong = 1 }
}
# the lines of `file`, of `file: names`, or of `file but names`
function add(text, file, some, count, name, i, named) {
    match(text, /^[^ :]+/)
    file = substr(text, 1, RLENGTH)
    text = substr(text, RLENGTH + 1)
    some = text ~ /^:/
    count = split(text, name, "`")
    for (i = 2; i <= count; i += 2) {
        named[name[i]] = 1
        if (!((file, name[i]) in lines)) { print "docs/PROMISES.md: " file " has no " name[i]; wrong = 1 }
    }
    count = split(names[file], name, " ")
    if (count == 0) { print "docs/PROMISES.md: no definitions in " file; wrong = 1 }
    for (i = 1; i <= count; i++)
        if (some == (name[i] in named)) {
            n += lines[file, name[i]]
            k += signature[file, name[i]]
        }
}
END {
    if (stated != all) { print "docs/PROMISES.md: in all " all " lines, said are " stated; wrong = 1 }
    exit wrong
}
