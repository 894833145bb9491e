# Reads the log of a searched line. Writes the bytes of the facts that its inferences show, and of the line's negation
# for each: what the entries of the search are measured by. Such a fact stands behind `raa`, and the negation behind
# `impi`.
function after(i, n) {
    if ($i == "~") return after(i + 1)
    if ($i == "!" || $i == "?") return after(i + 2)
    if ($i == "=" || $i == ">" || $i == "<>") return after(after(i + 1))
    if ($i == "v") return i + 2
    if ($i == "|" || $i == "&") {
        n = $(i + 1)
        i += 2
    } else {
        n = $(i + 2)
        i += 3
    }
    for (; n > 0; n--) i = after(i)
    return i
}
function bytes(i, end, sum) {
    for (; i < end; i++) sum += length($i) + 1
    return sum
}
$1 == "L" && $2 == "impi" {
    fact = after(3)
    if ($fact == "raa") text += bytes(3, fact) + bytes(fact + 1, after(fact + 1))
}
END { print text + 0 }
