# Makes the scenarios of the small cases, and what each must give, in the folders `scenario` and `wanted` of `made`. Prints
# the name of each case, FILE:LINE. A case is run in up to three ways: without a line feed behind its last line, with one,
# and, where the run ends at a line, with more lines behind it.

function fail(what) {
    print FILENAME ":" FNR ": " what > "/dev/stderr"
    broken = 1
    exit 1
}

# So many copies of a text.
function copies(text, count,   half) {
    if (count == 0) return ""
    half = copies(text, int(count / 2))
    return count % 2 ? half half text : half half
}

# The text that is written so: {N*TEXT} is N copies, and \n, \t, \v, \r, \# and \377 are bytes.
function spelled(text,   at, inner, star) {
    while (match(text, /\{[0-9]+\*[^{}]*\}/)) {
        at = RSTART
        inner = substr(text, at + 1, RLENGTH - 2)
        star = index(inner, "*")
        text = substr(text, 1, at - 1) copies(substr(inner, star + 1), substr(inner, 1, star - 1) + 0) \
            substr(text, at + RLENGTH)
    }
    gsub(/\\n/, "\n", text)
    gsub(/\\t/, "\t", text)
    gsub(/\\v/, "\v", text)
    gsub(/\\r/, "\r", text)
    gsub(/\\#/, "#", text)
    gsub(/\\377/, "\377", text)
    return text
}

# Writes a text into a file. What is spelled \0 is the byte 0.
function put(file, text,   count, pieces, i) {
    count = split(text, pieces, /\\0/)
    printf "%s", pieces[1] > file
    for (i = 2; i <= count; i++) printf "%c%s", 0, pieces[i] > file
    close(file)
}

# The lines of a journal that is written with ` / ` between them.
function lines(text) {
    if (text == "") return ""
    gsub(/ \/ /, "\n", text)
    return text "\n"
}

# Puts what a run that ends so says into `said`, and its exit number into `number`. 0 where the answer is no such end.
function is_end(answer, line,   words, count) {
    count = split(answer, words, " ")
    said = ""
    number = 2
    if (answer == "ok") number = 0
    else if (answer == "word") said = "unknown command"
    else if (answer == "count") said = "wrong number of words"
    else if (answer == "place") said = "command out of place"
    else if (count == 2 && words[1] == "number") said = "word " words[2] " is not a number here"
    else if (count == 2 && words[1] == "keyword") said = "word " words[2] " is not a keyword here"
    else if (answer == "not built") { said = "not built yet"; number = 8 }
    else if (count == 2 && answer in limits) { said = answer " " limits[answer]; number = 5; return 1 }
    else return 0
    if (number != 0) said = "line " line ": " said
    return 1
}

# One way to run a case.
function run(variant, scenario, journal) {
    put(made "/scenario/" case_name "." variant, scenario)
    put(made "/wanted/" case_name "." variant ".journal", journal)
    put(made "/wanted/" case_name "." variant ".end", (said == "" ? "" : "xemem: " said "\n") "exit " number "\n")
}

function begin(line) {
    case_name = FILENAME
    sub(/.*\//, "", case_name)
    sub(/\..*/, "", case_name)
    case_name = case_name ":" line
    print case_name
}

# Takes what stands behind the last ` -> ` of the row into `answer`, and gives what stands before it.
function text_before_answer(row,   at, rest) {
    answer = all
    at = 0
    rest = row
    while (match(rest, / -> /)) {
        at += RSTART
        rest = substr(rest, RSTART + 1)
    }
    if (at == 0) {
        if (all == "") fail("no answer")
        return row
    }
    answer = substr(row, at + 4)
    return substr(row, 1, at - 1)
}

# A row of a file of lines.
function row(   text, at, journal, line) {
    text = text_before_answer($0)
    at = index(answer, " : ")
    journal = before_journal
    if (at > 0) {
        journal = journal lines(substr(answer, at + 3))
        answer = substr(answer, 1, at - 1)
    }
    line = before_lines + 1
    if (match(answer, / at [0-9]+$/)) {
        line = substr(answer, RSTART + 4)
        answer = substr(answer, 1, RSTART - 1)
    }
    if (!is_end(answer, line)) {
        # The command is carried out, and the answer has the lines behind it.
        if (at > 0 || answer !~ /^[a-z]+ /) fail("no such answer: " answer)
        is_end("ok")
        journal = journal "do " text "\n" lines(answer)
    }
    begin(FNR)
    text = before spelled(text)
    run("a", text, journal)
    if (as_written) return
    run("b", text "\n", journal)
    if (number != 0) run("c", text "\nproc 0 1 1\njump\n", journal)
}

# Ends a paragraph of a file of runs.
function end_paragraph() {
    if (journal == "") return
    run("a", scenario, journal)
    scenario = ""
    journal = ""
}

BEGIN {
    limits["limit Scenario"] = 4194304
    limits["limit Lines"] = 65536
    limits["limit LineBytes"] = 4096
}

FNR == 1 {
    end_paragraph()
    is_runs = FILENAME ~ /\.runs$/
    before = before_journal = all = ""
    before_lines = as_written = 0
}

/^#/ { next }

is_runs {
    if ($0 == "") { end_paragraph(); next }
    if (journal == "") { begin(FNR); is_end("ok") }
    journal = journal $0 "\n"
    if (sub(/^do /, "")) scenario = scenario $0 "\n"
    next
}

$0 == "" { next }

# What stands before each of the rows below, and its journal.
sub(/^@after /, "") {
    at = index($0, " : ")
    if (at == 0) fail("no journal")
    before = spelled(substr($0, 1, at - 1)) "\n"
    before_journal = lines(substr($0, at + 3))
    before_lines = gsub(/\n/, "\n", before)
    next
}

# The answer of each row below that has none of its own.
sub(/^@all /, "") { all = $0; next }

# Each row below has its own answer.
$0 == "@each" { all = ""; next }

# The rows below are run in one way, as they are written.
$0 == "@as written" { as_written = 1; next }

/^@/ { fail("no such word") }

{ row() }

END {
    if (broken) exit 1
    end_paragraph()
}
