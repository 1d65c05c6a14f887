# The cycles of a load of one block of bench T, a line of a recording for each, as the rules have them (R-load-1 to R-load-6): 50H, FFH and
# the first reads; the erase where a bit must rise; a program for each byte that then differs; FFH and the verify's reads.
#   before, after   the block's bytes before and after the load, two hexadecimal digits each
#   first, rp       the block's first address, and the level of RP#
#   erase, program  the cycles that the two stay busy
# Whoever calls this has the lines checked by the program's word recording: nothing here is proved.
function digit(c) { return index("0123456789abcdef", c) - 1 }
function byte_of(text, i) { return 16 * digit(substr(text, 2 * i + 1, 1)) + digit(substr(text, 2 * i + 2, 1)) }
# some bit is 1 in the wanted byte where the held one has a 0
function rises(held, wanted, b) {
    for (b = 1; b < 256; b *= 2)
        if (int(wanted / b) % 2 > int(held / b) % 2) return 1
    return 0
}
function writes(at, data, busy) { printf "W %d 0 12000 %04X %02X N -- %s\n", rp, at, data, busy == 0 ? "-----" : sprintf("%05d", busy) }
function reads(at, data) { printf "R %d 0 12000 %04X 00 D %02X -----\n", rp, at, data }
function polls(at, n) {
    while (--n > 0) reads(at, 0)
    reads(at, 128)
}
BEGIN {
    n = length(before) / 2
    writes(first, 80, 0)
    writes(first, 255, 0)
    for (i = 0; i < n; i++) {
        held[i] = byte_of(before, i)
        wanted[i] = byte_of(after, i)
        if (rises(held[i], wanted[i])) risen = 1
        reads(first + i, held[i])
    }
    if (risen) {
        writes(first, 32, 0)
        writes(first, 208, erase)
        polls(first, erase)
        for (i = 0; i < n; i++) held[i] = 255
    }
    for (i = 0; i < n; i++)
        if (held[i] != wanted[i]) {
            writes(first + i, 64, 0)
            writes(first + i, wanted[i], program)
            polls(first + i, program)
        }
    writes(first, 255, 0)
    for (i = 0; i < n; i++) reads(first + i, wanted[i])
}
