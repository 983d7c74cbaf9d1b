# Reads the lines that wallrun is expected to print, those of each wall after a line with its name. Prints for each
# wall its name, a tab and the line that the example `widest` is to print, found from the bits of the half gaps.

# The value of a 64-bit floating number, from its 16 hexadecimal digits.
function value(digits,    i, exponent, fraction, size) {
    exponent = 0
    for (i = 1; i <= 3; i++)
        exponent = exponent * 16 + digit(digits, i)
    fraction = 0
    for (; i <= 16; i++)
        fraction = fraction * 16 + digit(digits, i)
    size = (1 + fraction / 2 ^ 52) * 2 ^ (exponent % 2048 - 1023)
    if (exponent % 2048 == 0 && fraction == 0)
        size = 0
    return exponent < 2048 ? size : -size
}

function digit(digits, i) {
    return index("0123456789abcdef", substr(digits, i, 1)) - 1
}

function finish() {
    if (name != "")
        print name "\t" line
}

NF == 1 {
    finish()
    name = $1
    line = "no closed seam"
    most = -1
}

$1 == "s" && $5 != "open" {
    gap = value($6)
    size = gap < 0 ? -gap : gap
    if (most < size) {
        most = size
        line = sprintf("widest %d %d %d %.1f", $2, $3, $4, gap)
    }
}

$1 == "refused" {
    line = $0
}

END {
    finish()
}
