# The size rules, worked out apart from the coder: what a size call is answered.
function answer(pdc, mod, fl, tm, dt,    ones, rest, b, r, t, p, block) {
    if (pdc > 255 || mod > 3 || fl > 63 || tm > 511 || dt > 7) return "refused 1"
    if (tm >= 64 || tm == 0) return "refused 2"
    if (dt > 3) return "refused 3"
    ones = 0
    for (rest = tm; rest > 0; rest = int(rest / 2)) ones += rest % 2
    b = (mod < 2) ? 1 : mod
    r = (mod == 0) ? 4 : 1
    t = (mod == 0) ? 4 : 8
    p = 6 * ones * 4 * fl * b / r
    block = (p < 12) ? 0 : int((p / 2 - 6) / 8)
    if (block < 2 * t + 1) return "refused 4"
    if (block > 255) return "refused 5"
    return "size " (block - 2 * t) " " (13 + 4 * fl)
}
