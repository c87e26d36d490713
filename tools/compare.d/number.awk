# The number that hex digits of either case write.
function number(digits,   i, n) {
    for (i = 1; i <= length(digits); i++)
        n = 16 * n + index("0123456789abcdef", tolower(substr(digits, i, 1))) - 1
    return n + 0
}
