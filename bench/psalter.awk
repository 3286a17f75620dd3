# Writes a generated psalter of about `size` bytes in USFM: lines of poetry with words of a vocabulary of some
# thousands, the first ones by far the most frequent, some with accents, all in Normalization Form C; and the name of
# the Lord, notes, words with attributes, headings and milestones.
function pick(n) { seed = (seed * 16807) % 2147483647; return seed % n }
function syllable() { return substr("bdfghklmnprstvz", 1 + pick(15), 1) vowel[pick(vowels)] }
function make_words(  i, j, made) {
    vowels = split("a e i o u a e i o ai ea ou á é ñi ö", list, " ")
    for (i = 1; i <= vowels; i++) vowel[i - 1] = list[i]
    for (i = 0; i < many; i++) {
        made = ""
        for (j = 1 + pick(i < 40 ? 1 : 4); j > 0; j--) made = made syllable()
        word[i] = made (pick(3) == 0 ? substr("nrstl", 1 + pick(5), 1) : "")
    }
}
function one() { return word[int(many ^ (pick(1000000) / 1000000)) - 1] }
function words(n,  made) {
    made = one()
    while (--n > 0) made = made " " one()
    return made
}
function verse(number,  made, chance, marked) {
    made = "\\q1 \\v " number " " words(5 + pick(8)) ",\n\\q2 " words(5 + pick(8))
    chance = pick(20)
    if (chance < 6) made = made " \\nd LORD\\nd* " words(3)
    else if (chance < 9) made = made "\\f + \\ft " words(8) "\\f*"
    else if (chance < 11) { marked = one(); made = made " \\w " marked "|lemma=\"" marked "\"\\w* " words(2) }
    else if (chance < 12) made = made " \\qt-s |who=\"" words(1) "\"\\*" words(4) "\\qt-e\\*"
    return made ".\n"
}
BEGIN {
    seed = 7
    many = 4000
    make_words()
    printf "\\id PSA\n"
    for (chapter = 1; made < size; chapter++) {
        part = "\\c " chapter "\n\\s " words(4) "\n\\d " words(5) "\n"
        for (number = 1 + pick(24); number > 0; number--) part = part verse(++told)
        told = 0
        printf "%s", part
        made += length(part)
    }
}
