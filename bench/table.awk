# Prints the table, and the largest ratios of each kind. Reads the cases as `calls count` prints them (group, name, answer), then what was
# counted (call, function, instructions). A case has four calls: library, reader, and both again. A payload has two cases, one after the
# other: for its number only, and for its whole record.
BEGIN { FS = "\t" }
NR == FNR { group[NR] = $1; name[NR] = $2; answer[NR] = $3; cases = NR; next }
{ total[$1] += $3; calls = $1 + 1 }

END {
    if (calls != 4 * cases) fail(4 * cases " calls were made, and " calls " counted")
    for (n = 1; n <= cases; n++) measure(n)

    printf "%-38s %-26s %s\n", "", "number only", "whole record"
    title("kind  payload"); heads(); print ""
    for (n = 1; group[n] != "slots"; n += 2) { line(n, sprintf("%4d  %s", group[n], name[n])); columns(n + 1); print "" }
    print ""
    title("slot call"); print ""
    for (; n <= cases; n++) { line(n, name[n]); print "" }

    print "\nlargest ratio     taken           refused"
    for (g = 1; g <= groups; g++) printf "%-14s %8s %17s\n", listed[g], ratio(listed[g], 0), ratio(listed[g], 1)
}

function measure(n,    first, refused) {
    first = 4 * (n - 1)
    if (total[first] != total[first + 2] || total[first + 1] != total[first + 3]) fail(name[n] ": counted twice, and not the same")
    library[n] = total[first]
    rust[n] = total[first + 1]
    refused = answer[n] != 0 && answer[n] != 20
    if (group[n] != group[n - 1]) listed[++groups] = group[n]
    if (library[n] / rust[n] > largest[group[n], refused]) largest[group[n], refused] = library[n] / rust[n]
}

function title(text) { printf "%-31s %6s", text, "answer"; heads() }
function heads() { printf " %8s %8s %7s", "library", "Rust", "ratio" }
function line(n, text) { printf "%-31s %6d", text, answer[n]; columns(n) }
function columns(n) { printf " %8d %8d %7.1f", library[n], rust[n], library[n] / rust[n] }
function ratio(g, refused) { return (g, refused) in largest ? sprintf("%.1f", largest[g, refused]) : "" }
function fail(text) { print "bench: " text > "/dev/stderr"; exit 1 }
