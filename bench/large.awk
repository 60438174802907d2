# Prints the counts of two copies side by side. Reads the cases (group, name, answer), what was counted in each copy (call, function,
# instructions), of which every fourth call is the library's, and the bytes of stack in each.
BEGIN { FS = "\t" }
FNR == 1 { file++ }
file == 1 { group[FNR] = $1; name[FNR] = $2; cases = FNR }
file == 2 { now[int($1 / 4) + 1] += $1 % 4 ? 0 : $3 }
file == 3 { large[int($1 / 4) + 1] += $1 % 4 ? 0 : $3 }
file >= 4 && FNR > 1 { split($0, words, " +"); bytes[file, words[1]] = words[2]; if (file == 4) entry[++entries] = words[1] }

END {
    printf "%-38s %-17s %s\n", "x86-64 instructions of one call", "number only", "whole record"
    printf "%-38s %8s %8s %8s %8s\n", "kind  payload", "now", "large", "now", "large"
    for (n = 1; group[n] != "slots"; n += 2) {
        printf "%-38s %8d %8d %8d %8d\n", sprintf("%4d  %s", group[n], name[n]), now[n], large[n], now[n + 1], large[n + 1]
        if (group[n] != 155) { compare(n); compare(n + 1) }
    }
    printf "\n%-38s %8s %8s\n", "slot call", "now", "large"
    for (; n <= cases; n++) {
        printf "%-38s %8d %8d\n", name[n], now[n], large[n]
        if (name[n] ~ /^feed / && name[n] !~ /^feed 155/) compare(n)
    }
    printf "\n%-38s %8s %8s\n", "bytes of stack for one call", "now", "large"
    for (n = 1; n <= entries; n++) printf "%-38s %8d %8d\n", entry[n], bytes[4, entry[n]], bytes[5, entry[n]]
    printf "\nmessages of other kinds than 155: %d counts, %d of them not the same\n", compared, different
    exit different > 0
}

function compare(n) { compared++; if (now[n] != large[n]) different++ }
