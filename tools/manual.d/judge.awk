# Judges a program's first steps by ours, string by string, and prints each difference with its grounds, or `unlisted`, then its
# key, the string, our step and theirs, with tabs between; and last how many strings there were, and of how many of them the text and
# the memory were compared.
#
#     awk -v program=NAME -v grounds=FILE -f number.awk -f spelling.awk -f judge.awk STRINGS OUR_STEPS THEIR_STEPS
#
# A refusal takes no byte; a prefix by itself is one too, and objdump takes the bytes of an ESC that it has no name for. Where both
# take as many, the text is compared of the opcodes on which the two readings part and of all returns, and of the others the memory
# that both name. A key is the program, what differs, the prefixes, opcode, reg and mod, and who refuses.

BEGIN {
    FS = "\t"
    while ((getline line < grounds) > 0)
        if (line !~ /^#/ && match(line, / *; */)) {
            pattern[++rows] = "^" substr(line, 1, RSTART - 1) "$"
            reason[rows] = substr(line, RSTART + RLENGTH)
        }
}

FNR == 1 { file++ }
file == 1 { string[FNR - 1] = $1; next }
$1 % 16 { next }
file == 2 { taken[$1 / 16] = $3 == "read" ? $2 : 0; text[$1 / 16] = $4; next }
{ judge($1 / 16, $2, $3 == "refused", $4) }

END {
    for (n = 0; n in string; n++)
        if (!(n in judged))
            print "unlisted\t" program " out of step\t" string[n] "\t" text[n] "\t"
    print "strings\t" n "\t" texts + 0 "\t" addresses + 0
}

function judge(n, their_taken, refused, theirs,   what, i, key) {
    judged[n] = 1
    read_opcode(string[n])
    if (refused && !(program == "objdump" && opcode ~ / D[8-F]\//) || theirs ~ /^([c-es]s|rep|repne)$/)
        their_taken = 0
    what = difference(taken[n], text[n], their_taken, theirs)
    if (what == "")
        return
    key = program " " what " " opcode " " (taken[n] ? their_taken ? "both read" : "they refuse" : "we refuse")
    for (i = 1; i <= rows && key !~ pattern[i]; i++)
        ;
    print (i <= rows ? reason[i] : "unlisted") "\t" key "\t" string[n] "\t" taken[n] " " text[n] "\t" their_taken " " theirs
}

function difference(our_taken, ours, their_taken, theirs) {
    if (our_taken != their_taken)
        return "bytes"
    if (our_taken == 0)
        return ""
    if (opcode ~ / (83|D[237]|C[23]|C[AB]|A[4-7]|A[A-F])\//) {
        texts++
        return spelled(ours) == spelled(theirs) ? "" : "text"
    }
    if (address(ours) == "" || address(theirs) == "")
        return ""
    addresses++
    return address(ours) == address(theirs) ? "" : "address"
}

# The prefixes of a string, its opcode, and reg and mod of the byte behind it.
function read_opcode(bytes,   count, byte, i, prefixes, high) {
    count = split(bytes, byte, " ")
    for (i = 1; byte[i] ~ /^(26|2E|36|3E|F2|F3)$/; i++)
        prefixes = prefixes byte[i] " "
    high = number(substr(byte[i + 1], 1, 1))
    opcode = (prefixes == "" ? "- " : prefixes) byte[i] "/" (high % 4 * 2 + (substr(byte[i + 1], 2) ~ /[89A-F]/)) " mod " int(high / 4)
}
