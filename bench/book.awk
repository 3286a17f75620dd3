# Writes a generated USFM text of about `size` bytes: `kind` prose, or marks (words each in a pair of marks).
function pick(n) { seed = (seed * 16807) % 2147483647; return seed % n }
function words(n,  made) {
    made = word[pick(many)]
    while (--n > 0) made = made " " word[pick(many)]
    return made
}
function marked(n,  made, one) {
    while (n-- > 0) { one = word[pick(many)]; made = made "\\w " one "|lemma=\"" one "\"\\w* " }
    return made
}
function verse(number,  made, chance) {
    if (kind == "marks") return "\\v " number " " marked(8 + pick(22)) "\n"
    made = "\\v " number " " words(8 + pick(22))
    chance = pick(20)
    if (chance < 3) made = made " \\nd LORD\\nd* " words(5)
    else if (chance < 5) made = made "\\f + \\ft " words(8) "\\f*"
    else if (chance < 6) made = made " \\add " words(2) " \\+nd LORD\\+nd*\\add*"
    else if (chance < 7) made = made "\\qt-s |who=\"" words(1) "\"\\*" words(4) "\\qt-e\\*"
    return made ".\n" (pick(10) == 0 ? "\\p\n" : "")
}
BEGIN {
    seed = 7
    many = split("In the beginning was a Word and God made light shine in darkness which has not overcome", list)
    for (i = 1; i <= many; i++) word[i - 1] = list[i]
    printf "\\id MAT\n"
    for (chapter = 1; made < size; chapter++) {
        part = "\\c " chapter "\n\\s " words(4) "\n\\p\n"
        for (number = 1; number < 40; number++) part = part verse(number)
        printf "%s", part
        made += length(part)
    }
}
