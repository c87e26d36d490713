# Brings what Sangkelod, ndisasm and objdump print to one spelling: a repeat, a segment that is kept, the name and the operands;
# numbers have four digits, and memory has its segment, which is the manual's default where a program prints none. A displacement of
# 0 that was written is there, `+0000` of a byte too, whose width the others do not print; one that was not written is not.

function word_of(value) { return sprintf("%04x", (value % 65536 + 65536) % 65536) }

# A number with a sign or none, as a word.
function number_spelled(text,   sign) {
    sign = text ~ /^-/ ? -1 : 1
    sub(/^[-+]/, "", text)
    sub(/^0x/, "", text)
    return word_of(sign * number(text))
}

# The memory that a line names first, without its size; nothing where it names none.
function address(text,   segment, inner) {
    text = tolower(text)
    if (match(text, /[c-es]s:0x[0-9a-f]+/))
        return substr(text, RSTART, 3) "[" number_spelled(substr(text, RSTART + 3, RLENGTH - 3)) "]"
    if (!match(text, /([c-es]s:)?\[[^]]*\]/))
        return ""
    inner = substr(text, RSTART, RLENGTH)
    gsub(/[][]/, "", inner)
    segment = inner ~ /bp/ ? "ss:" : "ds:"
    if (inner ~ /:/) {
        segment = substr(inner, 1, 3)
        inner = substr(inner, 4)
    }
    if (inner ~ /^(0x)?[0-9a-f]+$/)
        return segment "[" number_spelled(inner) "]"
    if (!match(inner, /[-+](0x)?[0-9a-f]+$/))
        return segment "[" inner "]"
    return segment "[" substr(inner, 1, RSTART - 1) "+" number_spelled(substr(inner, RSTART)) "]"
}

function operand_spelled(text,   memory) {
    memory = address(text)
    if (memory != "")
        return (text ~ /^(byte|word) / ? substr(text, 1, 5) : "") memory
    sub(/^byte /, "", text)
    return text ~ /^[-+]?(0x)?[0-9a-f]+$/ ? number_spelled(text) : text
}

# objdump has an operation on strings with its memory, of which [si], or [bx] of XLATB, is in the segment that is kept.
function with_its_memory(text,   name) {
    name = text
    sub(/ .*/, "", name)
    if (match(text, /[c-es]s:\[(si|bx)\]/))
        kept = substr(text, RSTART, 2)
    return name (name == "xlat" || text ~ /byte/ ? "b" : "w")
}

# The line but for its repeat and what it keeps.
function words_spelled(text,   name, count, operand, i, all) {
    if (text ~ /^(movs|cmps|lods|stos|scas|xlat) /)
        return with_its_memory(text)
    sub(/^ret far/, "retf", text)
    name = text
    sub(/ .*/, "", name)
    sub(/^[^ ]* ?/, "", text)
    count = split(text, operand, /, */)
    for (i = 1; i <= count; i++)
        all = all (i > 1 ? "," : " ") operand_spelled(operand[i])
    return name all
}

# objdump has the same for DS and for no override: there DS is left out.
function spelled(text,   repeat, word) {
    text = tolower(text)
    gsub(/ ptr /, " ", text)
    kept = ""
    while (match(text, /^(rep|rep[ez]|repn[ez]|[c-es]s:?) /)) {
        word = substr(text, 1, RLENGTH - 1)
        text = substr(text, RLENGTH + 1)
        if (word ~ /^rep/)
            repeat = word ~ /n/ ? "repne " : "repe "
        else
            kept = substr(word, 1, 2)
    }
    text = words_spelled(text)
    if (program == "objdump" && kept == "ds")
        kept = ""
    return repeat (kept == "" ? "" : kept ": ") text
}
