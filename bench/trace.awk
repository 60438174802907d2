# Reads the emulator's log, which has a line "Trace 0: .. [..] FUNCTION" for each instruction, and prints for each marked call, numbered
# from 0, the functions that ran between its marks: number, function, instructions.
BEGIN { OFS = "\t"; call = 0 }
$1 != "Trace" { print > "/dev/stderr"; next }
{ before = name; name = substr($0, index($0, "] ") + 2) }
name == "mark" && before != "mark" { if (inside) finish(); inside = !inside }
inside && name != "mark" && name != "make_call" { instructions[name]++ }

function finish(    f) {
    for (f in instructions) print call, f, instructions[f]
    split("", instructions)
    call++
}
