# Fails if a function of a Rattle source is 40 lines long or longer, from the line of its `fn` to its closing brace (attributes and comments
# above do not count), or if a source has more than 400 lines. Lines are read as the formatter lays them out: the braces of a function's body
# stand in the column of its first line, or the opening one ends that line.
function complain(place, what) {
    print place ": " what
    failed = 1
}
function length_is(n) {
    if (n >= 40) complain(source ":" begun, "a function of " n " lines, and the most is 39")
    if (n > longest) longest = n
    functions++
    begun = 0
}
function ends() {
    if (begun) complain(source ":" begun, "a function whose end was not found")
    if (lines > 400) complain(source, lines " lines, and the most is 400")
    begun = 0
}
BEGIN {
    if (ARGC == 1) exit
}
FNR == 1 {
    ends()
    source = FILENAME
    sources++
}
{
    lines = FNR
}
!begun && /^ *(pub(\([a-z]+\))? )?((const|unsafe|extern "C") )*fn / {
    begun = FNR
    inside = 0
    indent = $0
    sub(/[^ ].*/, "", indent)
    if (/[{].*}$/) length_is(1)
}
begun && !inside {
    # Without a body, in a trait.
    if (/;$/) begun = 0
    if ($0 ~ "^" indent "[^ ]" && /[{]$/) inside = 1
}
begun && inside && $0 == indent "}" {
    length_is(FNR - begun + 1)
}
END {
    ends()
    if (!functions) complain("lengths", "no function was found")
    if (!failed) print "style: the longest of " functions " functions in " sources " Rattle sources has " longest " lines"
    exit failed
}
