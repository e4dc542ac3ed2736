# Prints the kinds of the errors at a place in the log of a wrong program: "a fact" if one of them is a fact, otherwise
# the other kinds with their counts, or nothing. .ci/refused says what the kinds are.
#   awk -v place=PLACE -f errors.awk LOG
# PLACE is `fn CRATE::PATH`, a function: what is said of it, and the errors in the files of its proof. Or it is a file of
# the crate, proofs/PATH.antt. After a blank it may have the name of a definition in the file; then only errors in it
# count.
BEGIN {
    of_function = place ~ /^fn /
    folder = place
    sub(/^fn [a-z0-9_]+::/, "proofs/", folder)
    gsub(/::/, "/", folder)
    file = place
    if (!of_function && split(place, parts, " ") == 2) { file = parts[1]; named = "`" parts[2] "`: " }
}
# the text of an error goes on in the indented lines after it
/^  / { sub(/^ +/, " "); text = text $0; next }
{ judge(); text = $0; sub(/^[.]\//, "", text) }
# from here on the proof's files were put aside, and only a goal that is false at given values counts (.ci/tries)
/^tries: .* put aside$/ { aside = 1 }
END { judge(); report() }

function judge(    at, path) {
    if (aside) {
        if (of_function && index(text, "` of " folder "/Answers.antt may be false: ")) tally(kind_of_goal("`" quoted(text, "note: `") "`"))
        return
    }
    at = index(text, ": error: ")
    path = text
    sub(/:[0-9]+:[0-9]+: error: .*/, "", path)
    if (!of_function && at && path == file && index(substr(text, at + 9), named) == 1) tally(kind(text))
    if (of_function && at && match(path, /\/(Answers|Invariants|Proof)[.]antt$/) && substr(path, 1, RSTART - 1) == folder)
        tally(kind(text))
    if (of_function && index(text, place ": ") == 1 && text !~ /: proved$/) tally(kind_of_search(text))
}

function tally(k) { if (!count[k]++) found[++kinds] = k }

function report(    i, all) {
    for (i = 1; i <= kinds; i++)
        if (kinds == 1 || found[i] != "another's proof") all = all (all == "" ? "" : ", ") found[i] " (" count[found[i]] ")"
    if (count["a fact"]) print "a fact"
    else if (all != "") print all
}

# The kind of a line that says that a function has no proof. If there is no proof file for a goal, the prover searches.
function kind_of_search(t) {
    if (!match(t, /did not prove [^;]*/)) return "another's proof"
    return kind_of_goal(substr(t, RSTART, RLENGTH))
}

# Whether one of the goals is of the contract: what the function returns, or what a call requires.
function kind_of_goal(goals) {
    return goals ~ /`returns[^`]*`|-requires(-[^`]*)?`/ ? "a fact" : "an index or an overflow"
}

function kind(t) {
    if (t ~ /was not admitted|which was rejected, was not checked/) return "another's proof"
    if (t ~ /has no field|has no `[^`]*` that can be named|is no name/) return "a missing name"
    if (t ~ /is not in scope/ && t !~ /is not in scope here, so what is shown/) return "a missing name"
    if (t ~ /no occurrence of the path|no part of |is not a well-typed family|no equation of the list|rewrites nothing in/)
        return "a rewrite that finds no place"
    if (t ~ /the two types are identical/) return "types that read alike"
    if (literal(t)) return "a literal's text"
    if (t ~ /does not follow from what it read|`grind`: the goal does not follow[.]/) return "a fact"
    if (t ~ /first differ where one has .* at the start/ && t !~ /computed as far as they go/) return "types that read alike"
    if (t ~ /but this has type `|the two (types|sides|values) /) return "a fact"
    if (t ~ /two ends are equal, and `Path /) return "a fact"
    if (t ~ /`search`: no proof of |`cc`: the equations do not join |`(search|grind)` (found no proof|gave up|stopped)/)
        return "a search that finds nothing"
    return "the proof file's shape"
}

# Whether the two types are bounds and, as far as the error says, differ in a numeral only.
function literal(t,    wanted, given, computed) {
    wanted = quoted(t, "expected type `")
    given = quoted(t, "but this has type `")
    computed = after(t, "computed as far as they go, the two types ")
    if (but_for_numerals(wanted, given)) return 1
    if (but_for_numerals(quoted(computed, "are `"), quoted(computed, "(expected) and `"))) return 1
    if (!bound(wanted) || !bound(given)) return 0
    if (computed != "") return computed ~ /^differ only where one has `[0-9]+` \(expected\) and the other has `[0-9]+` \(found\)/
    # the sides that are no numerals are printed in two ways: nothing says that they differ
    return order(wanted) == order(given) && (apart(left(wanted), left(given)) || apart(right(wanted), right(given)))
}

# An order, also as a test of numbers, or that something is not so.
function bound(t) {
    if (t ~ /^(lib[.]Dec[.])?(leb|ltb|nat_le|nat_lt) .* ≡ ([A-Za-z.]*[.])?(true|false)$/ || t ~ / → (Prim[.])?⊥$/ || order(t) != "") return 1
    while (gsub(/\([^()]*\)/, "", t)) {}
    return t ~ / (≤|<|≢) / && t !~ / → /
}

function but_for_numerals(t, u) { return t != u && bound(t) && bound(u) && without_numerals(t) == without_numerals(u) }

function without_numerals(t,    n, i, word, all) {
    n = split(t, word, " ")
    for (i = 1; i <= n; i++) {
        if (word[i] ~ /^[(]*[0-9]+[)]*$/) gsub(/[0-9]+/, "#", word[i])
        all = all " " word[i]
    }
    return all
}

# The order that is written before its two sides; and those sides, if they are numerals.
function order(t) { return match(t, /^(Prim[.]Native[.]Nat[.])?_(≤|<)_ /) ? substr(t, 1, RLENGTH) : "" }
function left(t) { t = substr(t, length(order(t)) + 1); return match(t, /^[0-9]+ /) ? substr(t, 1, RLENGTH - 1) : "" }
function right(t) { return match(t, / [0-9]+$/) ? substr(t, RSTART + 1) : "" }
function apart(n, m) { return n != "" && m != "" && n != m }

# The text after some words; and of that the text before the next backtick.
function after(t, words) { return index(t, words) ? substr(t, index(t, words) + length(words)) : "" }
function quoted(t, words) { t = after(t, words); return substr(t, 1, index(t, "`") - 1) }
