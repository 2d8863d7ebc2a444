# Reads tarredlath.h, and writes what it declares, a line each:
#
#     function NAME RESULT (TYPE NAME, ..)
#     field STRUCT NUMBER TYPE NAME
#     number NAME VALUE                            each macro that is a number

function trimmed(text) {
    gsub(/[ \t]+/, " ", text)
    gsub(/^ | $/, "", text)
    return text
}

function write_function(text, name, result, parameters) {
    name = text
    sub(/ *\(.*/, "", name)
    result = name
    sub(/.* /, "", name)
    sub(/ [^ ]*$/, "", result)
    parameters = text
    gsub(/^[^(]*\( *| *\)[^)]*$/, "", parameters)
    if (parameters == "void") parameters = ""
    print "function " name " " result " (" parameters ")"
}

# An array's length may be a macro's name.
function write_field(text, name, type, times) {
    name = text
    sub(/.* /, "", name)
    type = text
    sub(/ [^ ]*$/, "", type)
    if (name ~ /\[/) {
        times = name
        gsub(/.*\[|\].*/, "", times)
        sub(/\[.*/, "", name)
        type = type "[" (times in number ? number[times] : times) "]"
    }
    print "field " struct " " ++fields[struct] " " type " " name
}

function take_statement(text) {
    if (text ~ /typedef struct/) {
        struct = text
        sub(/.*typedef struct /, "", struct)
        sub(/ *\{.*/, "", struct)
        sub(/.*\{ */, "", text)
    }
    if (text ~ /\}/) struct = ""
    else if (struct != "") write_field(text)
    else if (text ~ /\(/) write_function(text)
}

# Comments go, wherever they begin and end.
{
    line = $0
    while (1) {
        if (is_comment) {
            if (!match(line, /\*\//)) { line = ""; break }
            line = substr(line, RSTART + 2)
            is_comment = 0
        }
        if (!match(line, /\/\*/)) break
        rest = substr(line, RSTART + 2)
        line = substr(line, 1, RSTART - 1)
        if (!match(rest, /\*\//)) { is_comment = 1; break }
        line = line " " substr(rest, RSTART + 2)
    }
}

line ~ /^#define [A-Z_]+ +[0-9]+u? *$/ {
    split(trimmed(line), words, " ")
    sub(/u$/, "", words[3])
    number[words[2]] = words[3]
    print "number " words[2] " " words[3]
}

line ~ /^#/ || line ~ /^extern "C"/ { next }

{
    text = text " " line
    while ((end = index(text, ";")) > 0) {
        take_statement(trimmed(substr(text, 1, end - 1)))
        text = substr(text, end + 1)
    }
}
