# Brings what a program said to a line for each step: offset, bytes taken, read or refused, text, with tabs between. The bytes
# taken are those that the program shows or counts; a line of Sangkelod's that shows seven reaches to the next line's offset.
#
#     awk -v program=NAME -v image_length=N -f tools/compare.d/number.awk -f tools/compare.d/steps.awk

function release(next_offset) {
    if (!held)
        return
    if (program == "Sangkelod" && taken == 7)
        taken = next_offset - offset
    print offset "\t" taken "\t" (text ~ /^DB |^db 0x|^\.byte |\(bad\)/ ? "refused" : "read") "\t" text
    held = 0
}

function hold(at, bytes, words) {
    release(at)
    held = 1
    offset = at
    taken = bytes
    text = words
    gsub(/ +/, " ", text)
    sub(/ $/, "", text)
}

program == "Sangkelod" && /^[0-9A-F]+  / { hold(number($1), split(substr($0, 7, 21), shown, " "), substr($0, 30)) }

program == "ndisasm" && /^[0-9A-F]+  / { hold(number($1), length($2) / 2, substr($0, 29)) }
program == "ndisasm" && /^ +-/ { taken += (length($1) - 1) / 2 }

program == "objdump" && /^ *[0-9a-f]+:\t/ {
    split($0, field, "\t")
    gsub(/[ :]/, "", field[1])
    bytes_shown = split(field[2], shown, " ")
    if (field[3] == "")
        taken += bytes_shown
    else
        hold(number(field[1]), bytes_shown, field[3])
}

program ~ /^(the given Rust|Capstone|Zydis)$/ { print }

END { release(image_length) }
