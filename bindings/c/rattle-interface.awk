# Reads Rattle sources, and writes what of them a C program meets, a line each, as header-interface.awk does of the header:
#
#     function NAME RESULT (TYPE NAME, ..)         each `#[unsafe(no_mangle)] pub extern "C" fn`
#     field STRUCT NUMBER TYPE NAME                each field of a `#[repr(C)]` struct, by the C names of both
#
# With -v asserts=FILE it also writes a C program there that asserts the size of each struct and where its fields are, by the rules
# of the x86-64 ABI: a field stands at the next multiple of its own alignment, and a struct ends at one of its widest field's.

BEGIN {
    # The C names of the types, and the bytes of those that are numbers.
    c_type["usize"] = "size_t"; bytes["size_t"] = 8
    c_type["u8"] = "uint8_t"; bytes["uint8_t"] = 1
    c_type["u16"] = "uint16_t"; bytes["uint16_t"] = 2
    c_type["u32"] = "uint32_t"; bytes["uint32_t"] = 4
    c_type["AnswerNumbers"] = "tarredlath_answer"
    c_type["BodyNumbers"] = "tarredlath_body"
    c_type["CalledNumbers"] = "tarredlath_called"
    c_type["EnoughNumbers"] = "tarredlath_words"
    c_type["Filled"] = "tarredlath_filled"
    c_type["Opening"] = "tarredlath_opening"
    c_type["PlaceNumbers"] = "tarredlath_place"
    c_type["RanNumbers"] = "tarredlath_ran"
    c_type["ScanNumbers"] = "tarredlath_scan"
    c_type["StartedNumbers"] = "tarredlath_started"
    c_type["View"] = "tarredlath_view"
    c_type["WorkerNumbers"] = "tarredlath_worker"

    # The names that differ: `where` and `openings` say more to a caller.
    c_name["site"] = "where"
    c_name["records"] = "openings"

    # A state is compared bit by bit, so it must have no gap.
    without_gap["tarredlath_scan"] = without_gap["tarredlath_place"] = without_gap["tarredlath_worker"] = 1
}

function trimmed(text) {
    gsub(/[ \t]+/, " ", text)
    gsub(/^ | $/, "", text)
    return text
}

function type_in_c(type) { return type in c_type ? c_type[type] : "unknown:" type }

function name_in_c(name) { return name in c_name ? c_name[name] : name }

# ---- functions

# A lent slice is a pointer and a length.
function parameter_in_c(text, parts, name, type, pointer) {
    split(text, parts, /: */)
    name = name_in_c(trimmed(parts[1]))
    type = trimmed(parts[2])
    if (type !~ /^&/) return type_in_c(type) " " name
    pointer = type ~ /^&mut / ? "" : "const "
    gsub(/^&(mut )?\[|\]$/, "", type)
    return pointer type_in_c(type) " *" name ", size_t " name "_length"
}

function write_function(text, name, parameters, result, parts, count, i, written) {
    sub(/.* fn /, "", text)
    name = text
    sub(/\(.*/, "", name)
    result = text
    if (!sub(/.*\) *-> */, "", result)) result = "void"
    parameters = text
    sub(/^[^(]*\(/, "", parameters)
    sub(/\)[^)]*$/, "", parameters)
    count = split(trimmed(parameters), parts, /, */)
    for (i = 1; i <= count; i++)
        if (parts[i] != "") written = written (written == "" ? "" : ", ") parameter_in_c(parts[i])
    print "function " trimmed(name) " " (result == "void" ? result : type_in_c(trimmed(result))) " (" written ")"
}

/^#\[unsafe\(no_mangle\)\]/ { is_exported = 1; signature = ""; next }

# A signature goes up to its contract or its body.
is_exported {
    is_last = /ensures|\{/
    line = $0
    sub(/(ensures|\{).*/, "", line)
    signature = signature " " line
    if (is_last) {
        write_function(signature)
        is_exported = 0
    }
    next
}

# ---- structs

/^#\[repr\(C\)\]/ { is_laid_out = 1; next }

is_laid_out && / struct / {
    struct = $0
    gsub(/.* struct | *\{.*/, "", struct)
    struct = type_in_c(struct)
    structs[++struct_count] = struct
    fields[struct] = 0
    next
}

is_laid_out && /^}/ { is_laid_out = 0; next }

is_laid_out && /: / {
    split($0, halves, /: */)
    field = halves[1]
    sub(/^ *pub +/, "", field)
    type = halves[2]
    sub(/, *$/, "", type)
    times = 1
    if (type ~ /^\[/) {
        split(type, halves, /[][;] */)
        type = halves[2]
        times = halves[3] + 0
    }
    n = ++fields[struct]
    field_name[struct, n] = name_in_c(trimmed(field))
    field_type[struct, n] = type_in_c(trimmed(type))
    field_times[struct, n] = times
    print "field " struct " " n " " field_type[struct, n] (times == 1 ? "" : "[" times "]") " " field_name[struct, n]
}

# ---- layout

function rounded(n, step) { return int((n + step - 1) / step) * step }

function alignment(type, n, widest, one) {
    if (type in bytes) return bytes[type]
    for (n = 1; n <= fields[type]; n++) {
        one = alignment(field_type[type, n])
        if (one > widest) widest = one
    }
    return widest
}

function size(type, n, end) {
    if (type in bytes) return bytes[type]
    for (n = 1; n <= fields[type]; n++)
        end = rounded(end, alignment(field_type[type, n])) + field_times[type, n] * size(field_type[type, n])
    return rounded(end, alignment(type))
}

function assert(condition) { print "_Static_assert(" condition ", \"" condition "\");" >asserts }

function assert_layout(struct, n, type, end, sum) {
    for (n = 1; n <= fields[struct]; n++) {
        type = field_type[struct, n]
        end = rounded(end, alignment(type))
        assert("offsetof(" struct ", " field_name[struct, n] ") == " end)
        end += field_times[struct, n] * size(type)
        sum = sum (n == 1 ? "" : " + ") "sizeof(((" struct " *)0)->" field_name[struct, n] ")"
    }
    assert("sizeof(" struct ") == " size(struct))
    assert("_Alignof(" struct ") == " alignment(struct))
    if (struct in without_gap) assert("sizeof(" struct ") == " sum)
}

END {
    if (asserts == "") exit
    print "#include \"tarredlath.h\"" >asserts
    for (i = 1; i <= struct_count; i++) assert_layout(structs[i])
}
