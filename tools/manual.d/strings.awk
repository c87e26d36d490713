# The byte strings that tools/manual tries, in hex, one a line: every first byte with every second one before each tail, and the
# operations on strings and XLATB behind every override and repeat, in either order.

function behind_prefixes(front,   i) {
    for (i = 1; i <= operations; i++)
        print front operation[i]
}

BEGIN {
    tails = split("34 92 78 F6,80 00 7F 00,00 00 80 FF,46 FE 01 80", tail, ",")
    for (t = 1; t <= tails; t++)
        for (first = 0; first < 256; first++)
            for (second = 0; second < 256; second++)
                printf "%02X %02X %s\n", first, second, tail[t]
    operations = split("A4 A5 A6 A7 AA AB AC AD AE AF D7", operation, " ")
    overrides = split(",26 ,2E ,36 ,3E ", override, ",")
    repeats = split(",F2 ,F3 ", repeat, ",")
    for (o = 1; o <= overrides; o++)
        for (r = 1; r <= repeats; r++) {
            behind_prefixes(override[o] repeat[r])
            if (o > 1 && r > 1)
                behind_prefixes(repeat[r] override[o])
        }
}
