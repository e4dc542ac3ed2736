# Reads the sources of a crate and prints a line for each public function, with tabs between its fields:
#   function  CRATE::TYPE::NAME  FILE:LINE  yes or no: it has a requires  the text of its ensures
# TYPE is given only for a function in an `impl`; modules are left out. The methods of an `impl` of a trait are public.
# Without an ensures of its own, such a method has the text of the ghost items before it, which the trait's ensures
# names.
#   awk -v crate=CRATE -f functions.awk FILE..
# `part` says what is being read of a function: "name" up to its name, "head" up to its body, "clause" inside a
# clause.
FNR == 1 { depth = 0; type[0] = ""; of_trait[0] = 0; part = ""; visible = 0 }
{
    rest = $0
    gsub(/\t/, " ", rest)
    while (match(rest, /b?"([^"\\]|\\.)*"|b'(\\[^']*.|[^'\\])'|'[A-Za-z_]+|[A-Za-z_][A-Za-z0-9_]*|\/\/|[{}();]/)) {
        word = substr(rest, RSTART, RLENGTH)
        if (word == "//") { rest = substr(rest, 1, RSTART - 1); break }
        keep(substr(rest, 1, RSTART + RLENGTH - 1))
        rest = substr(rest, RSTART + RLENGTH)
        take(word)
    }
    keep(rest " ")
}

function keep(text) {
    if (clause == "ensures") ensures = ensures text
    else if (part == "ghost") ghost = ghost text
}

function take(t) {
    if (part == "clause") {
        if (t == "{") nested++
        else if (t == "}" && --nested == 0) { part = "head"; clause = "" }
    } else if (part == "name") {
        name = t; part = "head"; requires = "no"; ensures = clause = ""
    } else if (part == "head") take_in_head(t)
    else if (part == "ghost" || part == "use") {
        if (t == "use" && nested == 0) part = t
        else if (t == "{") nested++
        else if (t == "}") nested--
        else if (t == ";" && nested == 0) part = ""
    } else if (part == "impl") {
        if (t == "{") { depth++; type[depth] = of; of_trait[depth] = trait; part = ghost = "" }
        else if (t == "for") trait = 1
        else if (t ~ /^[A-Za-z_]/) of = t
    } else if (t == "fn") {
        public = visible || of_trait[depth]
        place = FILENAME ":" FNR; part = "name"
    } else if (t == "impl") { part = "impl"; of = ""; trait = 0 }
    else if (t == "ghost" && of_trait[depth]) { part = "ghost"; nested = 0 }
    else if (t == "{") { depth++; type[depth] = type[depth - 1]; of_trait[depth] = 0 }
    else if (t == "}") depth--
    # "pub" counts up to "fn", also if certain words are between them; "pub(crate)" does not count.
    visible = (t == "pub" || visible && t ~ /^(const|unsafe|extern|"C")$/)
}

function take_in_head(t) {
    if (t == "requires") { requires = "yes"; clause = t }
    else if (t == "ensures") clause = t
    else if (t == "{" && clause != "") { part = "clause"; nested = 1 }
    else if (t == "{") {
        if (public) print "function\t" crate "::" (type[depth] == "" ? "" : type[depth] "::") name "\t" place "\t" requires "\t" (ensures == "" && of_trait[depth] ? ghost : ensures)
        part = ghost = ""; depth++; type[depth] = type[depth - 1]; of_trait[depth] = 0
    }
}
