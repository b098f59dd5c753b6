# Lays out the rows of docs/FORMATS.md on the command that WANTED names, in plain lines. Where there is none it fails, and tells the
# names of those that begin with the same letter.
/^## / { inside = $0 == "## What the commands do" }
inside && /^\| `/ {
    gsub(/`/, "")
    split($0, cells, / *\| */)
    name = cells[2]
    sub(/ .*/, "", name)
    if (name == ENVIRON["WANTED"]) {
        print (found++ ? "\n" : "") cells[2]
        put_row(cells[3], cells[4], cells[5])
    } else if (substr(name, 1, 1) == substr(ENVIRON["WANTED"], 1, 1) && !seen[name]++) {
        near = near " " name
    }
}
END {
    if (!found) {
        printf "%s", near
        exit 1
    }
}

function put_row(does, refusals, reply,   parts, count, i) {
    put("  ", does)
    count = split(refusals, parts, /; /)
    print "  refusals" (count ? ", in the order of their tests:" : ": none")
    for (i = 1; i <= count; i++) put("    ", parts[i])
    put("  ", "reply: " reply)
}

# Lines of at most 80 characters.
function put(indent, text,   words, count, i, line) {
    count = split(text, words, " ")
    line = indent words[1]
    for (i = 2; i <= count; i++) {
        if (length(line " " words[i]) > 80) {
            print line
            line = indent " "
        }
        line = line " " words[i]
    }
    print line
}
