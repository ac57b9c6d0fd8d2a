# A table of sqlite3's mode `ascii` (fields end with byte 31, rows with byte 30, the first row has the names) as CSV on standard
# output, and, where `page` names a file, as the rows of a table of HTML there: at most `most` of them, with a bar for the column `bar`.
BEGIN { FS = "\037"; RS = "\036" }

function is_number(text) { return text ~ /^-?[0-9]+(\.[0-9]+)?$/ }

# A spreadsheet takes a field that begins so for a formula, unless it is a number: an apostrophe goes before it.
function csv(text) {
    if (text ~ /^[=+@\t\r-]/ && !is_number(text)) text = "'" text
    if (text ~ /[",\r\n]/) { gsub(/"/, "\"\"", text); text = "\"" text "\"" }
    return text
}

function html(text) {
    gsub(/&/, "\\&amp;", text); gsub(/</, "\\&lt;", text); gsub(/>/, "\\&gt;", text)
    return text
}

{
    line = csv($1)
    for (i = 2; i <= NF; i++) line = line "," csv($i)
    printf "%s\r\n", line
    if (page == "" || NR > most + 1) next
    cells = ""
    for (i = 1; i <= NF; i++) {
        if (NR == 1) { name = $i; gsub(/_/, " ", name); if ($i == bar) { column = i; named = name } cells = cells "<th scope=\"col\">" html(name) "</th>" }
        else cells = cells (is_number($i) && length($i) < 12 ? "<td class=\"n\">" : "<td>") html($i) "</td>"
    }
    row[NR] = cells
    if (column && NR > 1) { value[NR] = $column + 0; size = value[NR] < 0 ? -value[NR] : value[NR]; if (size > largest) largest = size }
}

END {
    if (page == "" || NR == 0) exit
    if (bar ~ /_percent$/) largest = 100
    printf "<thead><tr>%s%s</tr></thead>\n<tbody>\n", row[1], column ? "<th scope=\"col\">" named "</th>" : "" >page
    for (n = 2; n <= NR && n <= most + 1; n++) {
        printf "<tr>%s", row[n] >page
        if (column) {
            size = value[n] < 0 ? -value[n] : value[n]
            printf "<td><svg width=\"160\" height=\"10\" aria-hidden=\"true\"><rect class=\"%s\" width=\"%d\" height=\"10\"/></svg></td>", value[n] < 0 ? "less" : "more", largest ? 160 * size / largest : 0 >page
        }
        print "</tr>" >page
    }
    print "</tbody>" >page
}
