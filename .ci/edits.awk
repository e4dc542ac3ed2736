# Reads must-fail edits. A block is one wrong program, and ends at an empty line. It has the name of the program, once
# for each place that must refuse it, and the replacements that make the program.
#   # NAME: PLACE
#   file: FILE
#   old: TEXT
#   new: TEXT
# Prints a line for each name, and one for each fault:
#   program  EDIT FILE  NAME  PLACE  code (no file of specs/ is changed) or definition
#   fault    EDIT FILE:LINE  what is wrong
BEGIN {
    OFS = "\t"
    path = "[A-Za-z0-9_]+"
    form = "^# [a-z0-9_]+: (proofs/(" path "/)*" path "[.]antt( [A-Za-z][A-Za-z0-9_-]*)?|fn " path "(::" path ")+)$"
}
FNR == 1 { end_block(); edit = FILENAME }
/^$/ { end_block(); next }
!start { start = FNR }
/^#/ { take_name(); next }
/^file: / { take_file(); next }
/^old: |^new:/ { next }
{ fault(FNR, "neither `# NAME: PLACE` nor `file:`, `old:` or `new:`: " $0) }
END { end_block() }

function fault(line, text) { print "fault", edit ":" line, text }

function take_file() {
    files++
    if ($2 ~ /^specs\//) kind = "definition"
    else if ($2 !~ /^src\//) fault(FNR, "a file that is neither of src/ nor of specs/: " $0)
}

function take_name() {
    comments++
    if ($0 !~ form) fault(FNR, "no `# NAME: PLACE`: " $0)
    else if (files) fault(FNR, "a name after a `file:` line, where an empty line must end the block: " $0)
    else {
        name[++names] = substr($2, 1, length($2) - 1)
        place[names] = substr($0, length($2) + 4)
    }
}

function end_block(    i) {
    if (files && !comments) fault(start, "a block without a name")
    for (i = 1; i <= names; i++) {
        if (!files) fault(start, "no `file:` line after the name " name[i])
        print "program", edit, name[i], place[i], kind
    }
    start = comments = names = files = 0
    kind = "code"
}
