# Of Markdown files: what each promises of its code blocks, and its links. Usage: awk -f pages.awk -v out=FOLDER FILE..
#
# A line `<!-- from PATH -->` promises that the fenced code block on the next lines is the file PATH, named from the repository's root.
# Prints, fields parted by tabs:
#   from FILE LINE PATH BLOCK   the block's lines are in the file BLOCK, in `out`; BLOCK is `none` where no block follows
#   link FILE LINE TARGET       a link to a file, without what follows `#`
# Links and promises inside a block, and links inside backquotes, are text.

function promise_without_block() {
    if (path != "") printf "from\t%s\t%d\t%s\tnone\n", file, promised, path
    path = ""
}

function link(target) {
    sub(/#.*/, "", target)
    if (target != "" && target !~ /^[A-Za-z][A-Za-z0-9+.-]*:/) printf "link\t%s\t%d\t%s\n", FILENAME, FNR, target
}

# The links of a line, `[words](target)` or `[words]: target`.
function links(line,    target) {
    gsub(/`[^`]*`/, "", line)
    if (match(line, /^ *\[[^]]*\]: */)) {
        target = substr(line, RLENGTH + 1)
        sub(/ .*/, "", target)
        link(target)
        return
    }
    while (match(line, /\]\([^)]*\)/)) {
        target = substr(line, RSTART + 2, RLENGTH - 3)
        sub(/ .*/, "", target)
        link(target)
        line = substr(line, RSTART + RLENGTH)
    }
}

FNR == 1 { promise_without_block(); fence = ""; block = "" }
{ file = FILENAME }

# In a block: its end, or a line of it.
fence != "" {
    if ($0 ~ "^ *" fence "+ *$") { fence = ""; if (block != "") close(block); block = "" }
    else if (block != "") print > block
    next
}

/^ *(```|~~~)/ {
    fence = $0 ~ /^ *```/ ? "```" : "~~~"
    if (path != "") {
        block = out "/block" ++blocks
        printf "" > block
        printf "from\t%s\t%d\t%s\t%s\n", file, promised, path, block
        path = ""
    }
    next
}

{ promise_without_block() }

/^<!-- from .* -->$/ {
    path = substr($0, 11, length($0) - 14)
    promised = FNR
    next
}

{ links($0) }

END { promise_without_block() }
