# For each declaration of the files of definitions: its file below crates/, its name, its lines, and how many of these are signature.
# Blank lines, comments and imports do not count; a declaration goes to the next one.
function tell() {
    if (name != "") print file "\t" name "\t" lines "\t" signature
    name = ""
}
FNR == 1 { tell(); file = FILENAME; sub(/^crates\//, "", file); inside = -1 }
/^ *$/ || /^ *--/ || /^ *(pub )?(use|mod) / { next }
{
    match($0, /^ */)
    indent = RLENGTH
    text = substr($0, indent + 1)
}
inside >= 0 && indent > inside { lines++; next }
{ inside = -1 }
text ~ /^module _/ { tell(); name = "module"; lines = signature = open = 1; next }
text ~ /^(pub )?(data|record) [A-Z]/ {
    tell()
    sub(/^pub /, "", text)
    split(text, word, " ")
    name = word[2]
    lines = signature = 1
    inside = indent
    next
}
{
    plain = text
    while (sub(/^(unfoldable|abbrev|pub) /, "", plain)) {}
    split(plain, word, " ")
    rest = substr(plain, length(word[1]) + 1)
    if (word[1] !~ /^[({]/ && rest ~ /^( \{[^}]*\})? :/) {
        tell()
        name = word[1]
        lines = signature = 1
        open = 1
        next
    }
    lines++
    if (open && word[1] == name) open = 0
    if (open) signature++
}
END { tell() }
