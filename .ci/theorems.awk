# Reads a file of proofs and prints a line for each declaration, with tabs between its fields:
#   theorem  CRATE/NAME  its type, after the section (`module _ (x : A) where`) that it is in
#   awk -v crate=CRATE -f theorems.awk FILE
# A type ends at an empty line, or at the line that begins with the name again.
/^ *--/ { next }
NF == 0 { finish(); next }
name != "" && $1 != name { type = type " " $0; next }
{ finish() }
unended { section = section " " $0; unended = !/where *$/; next }
indent($0) <= inside { section = "" }
$1 == "module" { section = $0; inside = indent($0); unended = !/where *$/; next }
{
    line = $0
    sub(/^ *(pub )?/, "", line)
    if (match(line, /^[^ ]+ :( |$)/)) { type = substr(line, RLENGTH + 1); name = line; sub(/ .*/, "", name) }
}
END { finish() }

function finish() { if (name != "") print "theorem\t" crate "/" name "\t" section " " type; name = "" }
function indent(t) { match(t, /^ */); return RLENGTH }
