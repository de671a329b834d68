# One source file as a part of its crate's page: what of it the crate offers. `names` are the names that its root hands on,
# `all` is 1 where everything public of the file is offered, `root` where it is the crate's root.

function escaped(s) { gsub(/&/, "\\&amp;", s); gsub(/</, "\\&lt;", s); gsub(/>/, "\\&gt;", s); return s }

# The line with its code marked, and its links as their text.
function marked(s,    out, at) {
    s = escaped(s)
    while (match(s, /\[`[^`]*`\](\([^)]*\))?/)) {
        at = substr(s, RSTART + 1, RLENGTH - 1)
        sub(/\].*/, "", at)
        s = substr(s, 1, RSTART - 1) at substr(s, RSTART + RLENGTH)
    }
    out = ""
    while (match(s, /`[^`]*`/)) {
        out = out substr(s, 1, RSTART - 1) "<code>" substr(s, RSTART + 1, RLENGTH - 2) "</code>"
        s = substr(s, RSTART + RLENGTH)
    }
    return out s
}

# Ends the list or the table that is open.
function closed() { if (open != "") print "</" open ">"; open = "" }

# Prints a text's lines: paragraphs, lists and tables.
function tell(count, lines,    i, s) {
    open = ""
    print "<p>"
    for (i = 1; i <= count; i++) {
        s = lines[i]
        if (s ~ /^\| *-/ || s ~ /^\|-/) continue
        if (s ~ /^\|/) {
            if (open != "table") { closed(); print "<table>"; open = "table" }
            gsub(/^\| *| *\|$/, "", s)
            s = marked(s)
            gsub(/ *\| */, "<td>", s)
            print "<tr><td>" s
        } else if (s ~ /^- /) {
            if (open != "ul") { closed(); print "<ul>"; open = "ul" }
            print "<li>" marked(substr(s, 3))
        } else if (s == "") { closed(); print "<p>" }
        else if (s ~ /^# /) { closed(); print "<p><b>" marked(substr(s, 3)) "</b><p>" }
        else print marked(s)
    }
    closed()
}

# Whether the crate offers an item of that name, in a block of that name.
function offered(name) { return all || index(names, " " (block != "" ? block : name) " ") }

/^\/\/!/ { if (root) { sub(/^\/\/! ?/, ""); about[++said] = $0 } next }
said && !told { tell(said, about); told = 1 }

taking && private {
    # of a struct the public fields alone
    if (/^}/) { print (shown ? "}" : "    ..\n}") "</pre>"; taking = private = 0 }
    else if (/^ *\/\/\//) field = field escaped($0) "\n"
    else { if (/^    pub /) { printf "%s%s\n", field, escaped($0); shown = 1 } field = "" }
    next
}

taking {
    # the lines of an item: its signature and contract, or all of an enum
    if (whole ? $0 ~ /^}/ : $0 ~ /^ *\{/ || $0 ~ /(\{|;|\{\})$/) {
        sub(/ *\{\}?$/, "")
        if ($0 !~ /^ *$/ && (!whole || $0 ~ /^}/)) print escaped($0)
        print "</pre>"
        taking = 0
    } else print escaped($0)
    next
}

/^ *\/\/\// { text = $0; sub(/^ *\/\/\/ ?/, "", text); doc[++count] = text; next }
/^ *#\[/ { next }
/^impl/ {
    # whose methods follow: the type behind `for`, or the first name
    block = $0
    sub(/^impl(<[^>]*(<[^>]*>)?[^>]*>)? */, "", block)
    is_of_trait = block ~ / for /
    sub(/^.* for /, "", block)
    sub(/[^A-Za-z0-9_].*/, "", block)
    count = 0
    next
}
/^}/ { block = ""; is_trait = is_of_trait = 0; count = 0; next }

/^ *pub (fn|struct|enum|trait|const) / || (is_trait && /^    fn /) {
    name = $0
    sub(/^ *(pub )?(fn|struct|enum|trait|const) /, "", name)
    sub(/[^A-Za-z0-9_].*/, "", name)
    if (count && !is_of_trait && offered(name)) {
        print "<h3 id=\"" (block != "" ? block "." : "") name "\">" (block != "" ? "<code>" block "::" name "</code>" : "<code>" name "</code>") "</h3>"
        tell(count, doc)
        print "<pre>"
        whole = /^pub (struct|enum) / && !/;$/
        line = $0
        if (/^pub trait /) { block = name; is_trait = 1 }
        if (!whole && line ~ /(\{|;)$/) { sub(/ *\{$/, "", line); print escaped(line) "</pre>" }
        else { print escaped(line); taking = 1; private = whole && /^pub struct/; shown = 0; field = "" }
    } else if (/^pub trait /) { block = name; is_trait = 1 }
    count = 0
    next
}
{ if ($0 !~ /^ *$/) count = 0 }
END { if (said && !told) tell(said, about) }
