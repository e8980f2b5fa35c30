# Takes the C out of a document, without changing a character, and refuses C that it would not take.
#
#   awk -v document=docs/X.md -v out=build/docs/X -f extract.awk docs/X.md
#
# A block fenced as `c` that has `int main(` begins a program, OUT-1.c, OUT-2.c, ...; later blocks
# fenced as `c` belong to it up to main's end, a line that is `}`. Every other such block is a piece.
# All pieces are one program, OUT-pieces.c, over support.h: those of a section are one function, in
# their order, and get an adapter of their own. A piece that defines a function, and so has a line
# that is `{`, stands before the function of its section.
#
# The files made are printed, with the number of blocks in each. A block that looks like C and is
# neither fenced as `c` nor as `text` or `sh` is an error, and so is any other language.

function refuse(line, why) {
    print document ":" line ": " why | "cat >&2"
    refused = 1
}

function begin_file(name) {
    file[++files] = name
    blocks[files] = 0
    text[files] = ""
}

# The lines of the block, told by the compiler's messages under their place in the document.
function placed() {
    return "#line " first " \"" document "\"\n" block
}

function add(number) {
    text[number] = text[number] placed()
    blocks[number]++
}

function end_section() {
    if (body != "") {
        sections++
        text[pieces] = text[pieces] "static void section_" sections "(void)\n{\nbegin_section();\n" \
            body "end_section();\n}\n"
        body = ""
    }
}

function add_piece() {
    if (!pieces) {
        begin_file(out "-pieces.c")
        pieces = files
        text[pieces] = "#include \"support.h\"\n"
    }
    if (has_function) {
        add(pieces)
    } else {
        body = body placed()
        blocks[pieces]++
    }
}

function end_c_block() {
    if (has_main && !program) {
        begin_file(out "-" ++programs ".c")
        program = files
        opened = first
    }
    if (!program) {
        add_piece()
    } else {
        add(program)
        if (main_ended) {
            program = 0
        }
    }
}

function end_other_block() {
    if (looks_like_c) {
        refuse(looks_like_c, "C outside a block fenced as c is not built")
    }
}

function begin_block(line) {
    first = line
    block = ""
    has_main = has_function = main_ended = looks_like_c = no_c = 0
}

# A block that begins with `$ ` or `# ` is of commands, or an edit of a crate.
function add_line(line) {
    if (line ~ /^[ \t]*#[ \t]*(include|define)/) {
        looks_like_c = FNR
    } else if (block == "" && line ~ /^[ \t]*[$#] /) {
        no_c = 1
    } else if (!no_c && line ~ /[;{}][ \t]*(\/\*.*\*\/[ \t]*|\/\/.*)?$/) {
        looks_like_c = FNR
    }
    has_main = has_main || line ~ /^int main\(/
    has_function = has_function || line == "{"
    main_ended = main_ended || ((has_main || program) && line == "}")
    block = block line "\n"
}

fenced && /^ *```/ {
    if (language == "c") {
        end_c_block()
    } else if (language == "") {
        end_other_block()
    }
    fenced = 0
    after_text = 0
    next
}

fenced {
    add_line($0)
    next
}

# An indented block, which does not follow a line of text.
/^(    |\t)/ && !after_text {
    if (!indented) {
        begin_block(FNR)
        indented = 1
    }
    add_line($0)
    next
}

indented && /^[ \t]*$/ { next }

indented {
    end_other_block()
    indented = 0
}

/^ *```/ {
    language = $0
    gsub(/^ *```|[ \t]+$/, "", language)
    if (language != "" && language !~ /^(c|text|sh)$/) {
        refuse(FNR, "a block fenced as " language " is not built")
    }
    begin_block(FNR + 1)
    fenced = 1
    next
}

/^ *~~~/ { refuse(FNR, "a block is fenced by three backquotes") }

/^#+ / { end_section() }

{ after_text = $0 !~ /^[ \t]*$/ && $0 !~ /^#+ / }

END {
    if (fenced) {
        refuse(first - 1, "the block has no end")
    } else if (indented) {
        end_other_block()
    }
    if (program) {
        refuse(opened, "main has no end")
    }
    if (refused) {
        close("cat >&2")
        exit 1
    }
    end_section()
    if (pieces) {
        text[pieces] = text[pieces] "int main(void)\n{\n"
        for (i = 1; i <= sections; i++) {
            text[pieces] = text[pieces] "section_" i "();\n"
        }
        text[pieces] = text[pieces] "return 0;\n}\n"
    }
    for (i = 1; i <= files; i++) {
        printf "%s", text[i] >file[i]
        print file[i], blocks[i]
    }
}
