# What a sampler sees that looks at a wave once each cycle: the names of the variables, then for each cycle 1 for a
# variable that is 1, and 0 for one that is 0, x or z.
/^\$var/ { place[$4] = ++count; names = names (count > 1 ? ", " : "") $5 }
/^\$enddefinitions/ { print names }
/^#/ { for (now = substr($0, 2) / 625; cycle < now; cycle++) print sample() }
/^[01xz]/ { value[place[substr($0, 2)]] = substr($0, 1, 1) }
function sample(  i, line) {
    for (i = 1; i <= count; i++) line = line (i > 1 ? "," : "") (value[i] == "1" ? 1 : 0)
    return line
}
