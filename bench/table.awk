# Tables from the lines of bench/run: WORK AXES OURS ON OFF CALLS FONT, the three as totals over CALLS, - where swash has no such work; of
# several lines for a work and a font the least. A row for each font, the mean over the places of its coordinates; with places=yes also one for each of
# these. To the file ratios goes a row for each work, and one for each number of axes.

function title(kind) {
    if (kind == "advance") return "an advance delta"
    if (kind == "raw") return "an advance delta as a 16.16 number"
    if (kind == "line") return "the advance deltas of a line of forty glyphs"
    if (kind == "list") return "an advance delta, with a list that is filled"
    if (kind == "filling") return "a list filled"
    if (kind == "kept") return "the advance deltas of a line of forty glyphs, with a list that is filled for it"
    if (kind == "settings") return "normalising: the coordinates of settings, one for each axis"
    if (kind == "instances") return "normalising: the coordinates of an instance"
    return "an MVAR tag"
}

function row(font, axes, place, ours, on, off) {
    sub(/.*\//, "", font)
    if (!on) {
        printf "| %s | %d | %s | %.1f | - | - | - | - |\n", font, axes, place, ours
        return
    }
    printf "| %s | %d | %s | %.1f | %.1f | %.1f | %.3f | %.3f |\n", font, axes, place, ours, on, off, ours / on, ours / off
}

function least(old, new) {
    return old == "" || new < old ? new : old
}

{
    split($1, part, "-")
    kind = part[1]
    font = $7
    for (i = 8; i <= NF; i++) font = font " " $i
    if (!(kind in rows)) kinds[++kind_count] = kind
    if (!(($1, font) in known)) known[$1, font] = ++rows[kind]
    n = known[$1, font]
    # picoseconds to nanoseconds
    unit = $6 * (measure == "time" ? 1000 : 1) / (kind == "line" || kind == "kept" ? 40 : 1)
    at[kind, n] = part[2] == "" ? "-" : part[2]
    axes[kind, n] = $2
    ours[kind, n] = least(ours[kind, n], $3 / unit)
    on[kind, n] = least(on[kind, n], $4 / unit)
    off[kind, n] = least(off[kind, n], $5 / unit)
    fonts[kind, n] = font
}

END {
    for (k = 1; k <= kind_count; k++) {
        kind = kinds[k]
        printf "\n%s: %s\n\n", measure == "time" ? "Nanoseconds" : "Instructions", title(kind)
        print "| font | axes | coordinates | ours | swash, checks on | swash, checks off | ours / on | ours / off |"
        print "|---|---|---|---|---|---|---|---|"
        split("", mean_on)
        split("", mean_off)
        split("", count)
        split("", most)
        for (i = 1; i <= rows[kind]; i++) {
            font = fonts[kind, i]
            if (places == "yes") row(font, axes[kind, i], at[kind, i], ours[kind, i], on[kind, i], off[kind, i])
            a += ours[kind, i]
            b += on[kind, i]
            c += off[kind, i]
            j++
            if (i < rows[kind] && fonts[kind, i + 1] == font) continue
            if (places != "yes" || j > 1) row(font, axes[kind, i], j > 1 ? "all" : at[kind, i], a / j, b / j, c / j)
            # group 0 has all fonts, group n those with n axes
            for (group = 0; b && group <= axes[kind, i]; group += axes[kind, i]) {
                mean_on[group] += a / b
                mean_off[group] += a / c
                if (a / b > most[group]) most[group] = a / b
                count[group]++
            }
            a = b = c = j = 0
        }
        for (group = 0; group <= 64; group++)
            if (count[group])
                printf "| %s%s | %s | %d | %.3f | %.3f | %.3f |\n", title(kind), group ? "; axes: " group : "", measure, count[group], mean_on[group] / count[group], most[group], mean_off[group] / count[group] >> ratios
    }
}
