# Checks docs/PROMISES.md and docs/EXCEPTIONS.md against what the crates have. .ci/promises says what is checked, and
# .ci/facts what the lines of its input are.
#   awk -f page.awk what=facts FACTS what=exceptions docs/EXCEPTIONS.md what=promises docs/PROMISES.md
what == "facts" { split($0, field, "\t"); take_fact(); next }
what == "exceptions" { for (i = ticked($0); i > 0; i--) excepted[names[i]] = 1; next }
{
    line = $0
    gsub(/\\\|/, "/", line)
    sub(/^[ \t]*/, "", line)
    split(line, cells, "|")
    if (line ~ /^\| *`[A-Za-z0-9_]+(::[A-Za-z0-9_]+)+` *\|/) function_row()
    else if (names_edits(line)) other_line(FILENAME ":" FNR)
}
END {
    for (i = 1; i <= functions; i++) check_function(order[i])
    if (!functions) say("no public function was found")
    print ".ci/promises: " functions + 0 " public functions, " bad + 0 " faults"
    exit bad > 0
}

function say(text) { print ".ci/promises: " text; bad++ }

function take_fact(    name) {
    name = field[2]
    if (field[1] == "function") { order[++functions] = name; place[name] = field[3]; requires[name] = field[4]; ensures[name] = field[5] }
    if (field[1] == "definition") defined[name] = 1
    if (field[1] == "theorem") type[name] = field[3]
    if (field[1] == "edit" && changes[name] != "definition") changes[name] = field[3]
}

function check_function(name,    at) {
    at = " (" place[name] ")"
    if (!(name in promised) && !(name in excepted)) say(name ": no row in docs/PROMISES.md, and not in docs/EXCEPTIONS.md" at)
    if (requires[name] == "yes") say(name ": public, and has a requires" at)
    if (ensures[name] == "" && !(name in excepted)) say(name ": no ensures, and not in docs/EXCEPTIONS.md" at)
}

function function_row(    name, crate, promise) {
    ticked(cells[2])
    name = names[1]
    promised[name] = 1
    if (!(name in place)) { say(name ": a row of docs/PROMISES.md, but no public function"); return }
    crate = name
    sub(/::.*/, "", crate)
    promise = check_definitions(name, crate, cells[4])
    check_theorems(name, crate, cells[5], promise)
    if (edits_of_code(name, crate, cells[6]) < 2) say(name ": its row names fewer than two edits of code")
    check_comparison(name, cells[7])
}

function other_line(at) {
    if (!edits_of_code(at, "", line) && line ~ /^\|/) say(at ": a row that names no edit of code")
}

# Looks for each definition of the cell. Returns the first one, which is the promise.
function check_definitions(name, crate, cell,    i, n) {
    n = ticked(cell)
    if (!n && !(name in excepted)) say(name ": its row names no definition")
    for (i = 1; i <= n; i++)
        if (!((crate "/" names[i]) in defined)) say(name ": no definition " names[i] " in crates/" crate "/specs")
    if (n && !has_word(ensures[name], names[1])) say(name ": its ensures does not name " names[1] ", the first definition of its row")
    return n ? names[1] : ""
}

function check_theorems(name, crate, cell, promise,    i, n, theorem) {
    n = ticked(cell)
    if (!n && !(name in excepted)) say(name ": its row names no theorem")
    for (i = 1; i <= n; i++) {
        theorem = crate "/" names[i]
        if (!(theorem in type)) say(name ": no theorem " names[i] " in crates/" crate "/proofs/OneReply.antt")
        else if (promise != "" && !has_word(type[theorem], promise))
            say(name ": the type of the theorem " names[i] " does not name " promise ", the first definition of its row")
    }
}

# Looks for each edit of the cell, and at its mark. Returns how many are of code. An edit without a crate is of this
# one.
function edits_of_code(name, crate, cell,    i, n, edit, kind, code, seen) {
    n = ticked(cell)
    for (i = 1; i <= n; i++) {
        if (crate == "" && !names_edits("`" names[i] "`")) continue
        edit = names[i] ~ /\// ? names[i] : crate "/" names[i]
        kind = edit in changes ? changes[edit] : ""
        if (kind == "") say(name ": no edit " edit)
        if (kind == "definition" && !marked[i]) say(name ": the edit " edit " changes a definition, and is not marked so")
        if (kind == "code" && marked[i]) say(name ": the edit " edit " changes code, and is marked as a definition's")
        if (kind == "code" && !seen[edit]++) code++
    }
    return code + 0
}

function check_comparison(name, cell,    file, line, got) {
    if (!match(cell, /[a-z_]+\.rs/)) return
    file = "host/comparison/src/" substr(cell, RSTART, RLENGTH)
    got = (getline line < file)
    close(file)
    if (got < 0) say(name ": no comparison " file)
}

# Whether a text names an edit as crate/edit.
function names_edits(text) { return text ~ /`[a-z0-9_]+\/[a-z0-9_]+`/ }

# Puts the names in backticks of a text, without their modules, into names[1..], and whether each is marked into
# marked[]. Returns their count.
function ticked(text,    n) {
    n = 0
    while (match(text, /`[^`]+`/)) {
        names[++n] = substr(text, RSTART + 1, RLENGTH - 2)
        sub(/^.*\./, "", names[n])
        text = substr(text, RSTART + RLENGTH)
        marked[n] = text ~ /^ \(definition\)/
    }
    return n
}

# Whether a text has the name as a word, perhaps after its module.
function has_word(text, name,    n, i, word) {
    gsub(/[][(){},;]|⌜|⌝/, " ", text)
    n = split(text, word, " ")
    for (i = 1; i <= n; i++) {
        sub(/^.*\./, "", word[i])
        if (word[i] == name) return 1
    }
    return 0
}
