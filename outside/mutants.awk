# Writes model.c, read whole, with one fault of mutants.txt in it, under the library's names.
# awk -v entry='NAME: OLD => NEW' -f mutants.awk model.c; exit status 3 where OLD does not stand exactly once.
BEGIN {
    RS = "\001"
    old = substr(entry, index(entry, ": ") + 2)
    at = index(old, " =>")
    new = substr(old, at + 4)
    old = substr(old, 1, at - 1)
    gsub(/[][\\.^$*+?(){}|\/]/, "\\\\&", old)
    gsub(/ +/, "[ \n]+", old)
}

{
    if (!match($0, old)) exit 3
    before = substr($0, 1, RSTART - 1)
    after = substr($0, RSTART + RLENGTH)
    if (match(after, old)) exit 3
    text = before new after
    gsub(/model_/, "crep_", text)
    printf "%s", text
}
