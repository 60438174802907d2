# Reads callgrind's files in order, each of which ends at a mark, so that every second one is a call; and prints for each call, numbered
# from 0, the functions that ran between its marks: number, function, instructions.
BEGIN { OFS = "\t" }
FNR == 1 { finish(); file++; split("", names) }
file % 2 == 1 { next }
# the line after has the cost of another function's call
/^calls=/ { getline; next }
# "fn=(12) NAME", and where the name was given before, "fn=(12)"
/^c?fn=/ {
    id = $1
    sub(/.*=/, "", id)
    if (NF > 1) names[id] = substr($0, index($0, ") ") + 2)
    if (/^fn=/) { name = names[id]; sub(/'[0-9]+$/, "", name) }
}
/^[-+*0-9]/ && name != "mark" && name != "make_call" { instructions[name] += $2 }
END { finish() }

function finish(    f) {
    for (f in instructions) print file / 2 - 1, f, instructions[f]
    split("", instructions)
}
