# The table of tone maps by size-rules.awk: crates/tonemaps/stdout is this script's output.
BEGIN {
    for (tm = 1; tm <= 63; tm++)
        for (mod = 0; mod <= 3; mod++) {
            shortest = longest = "    -    -"
            legal = 0
            for (fl = 0; fl <= 63; fl++)
                if (split(answer(0, mod, fl, tm, 0), part, " ") == 3) {
                    longest = sprintf("%5d%5d", fl, part[2])
                    if (!legal++) shortest = longest
                }
            printf "%5d%5d%s%s\n", tm, mod, shortest, longest
        }
}
