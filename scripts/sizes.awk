# Size calls of legal and illegal headers, and the answers to them by size-rules.awk.
# Set by -v: the files calls and answers.
BEGIN {
    maps = split("64 65 127 128 256 511 512 4294967295", beyond, " ")
    for (i = 1; i <= maps; i++) map[63 + i] = beyond[i]
    for (i = 0; i <= 63; i++) map[i] = i
    dts = split("0 3 4 7 8", dt, " ")
    for (mod = 0; mod <= 4; mod++)
        for (fl = 0; fl <= 64; fl++)
            for (i = 0; i <= 63 + maps; i++)
                for (k = 1; k <= dts; k++) {
                    pdc = (fl * 5 + dt[k]) % 257
                    print "size", pdc, mod, fl, map[i], dt[k] >calls
                    print answer(pdc, mod, fl, map[i], dt[k]) >answers
                }
}
