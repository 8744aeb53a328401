# Prints what a source declares of the library's interface, a fact a line, in one writing for all three languages:
#     call leaf_name(argument type, ..) type        field Struct place name type        const NAME number
# With -v c=1 the source is C's header, else Rattle or Rust. In the facts a lent slice is a pointer and a length, as C and Rust have it.

# the whole source as one line, without comments
{
    sub(/\/\/.*/, "")
    text = text " " $0
}

END {
    while (match(text, /\/\*[^*]*\*+([^\/*][^*]*\*+)*\//)) text = substr(text, 1, RSTART - 1) substr(text, RSTART + RLENGTH)
    gsub(/[ \t]+/, " ", text)
    if (c) read_c(); else read_rust()
}

# takes the next match out of the text
function next_match(pattern) {
    if (!match(text, pattern)) return 0
    found = substr(text, RSTART, RLENGTH)
    text = substr(text, RSTART + RLENGTH)
    return 1
}

# what stands between the first of `from` and the last of `to`
function inside(string, from, to) {
    string = substr(string, index(string, from) + 1)
    while (substr(string, length(string)) != to) string = substr(string, 1, length(string) - 1)
    return trimmed(substr(string, 1, length(string) - 1))
}

function trimmed(string) {
    gsub(/^ +| +$/, "", string)
    return string
}

# ---- C

function read_c(    all, parts, n, i, name) {
    all = text
    while (next_match("typedef struct \\{[^}]*\\} [A-Za-z]+;")) {
        name = found
        gsub(/.*\} |;$/, "", name)
        n = split(inside(found, "{", "}"), parts, ";")
        for (i = 1; i < n; i++) print "field " c_type(name) " " i " " c_declared(parts[i], 0)
    }
    text = all
    while (next_match("[A-Za-z0-9_]+ leaf_[a-z_]+\\(([^()]|\\([^()]*\\))*\\);")) {
        split(found, parts, "[ (]")
        print "call " parts[2] "(" c_arguments(inside(found, "(", ")")) ") " c_type(parts[1])
    }
    text = all
    next_match("enum LeafRefusal \\{[^}]*\\}")
    n = split(inside(found, "{", "}"), parts, ",")
    for (i = 2; i <= n; i++) {
        sub(/^ *LEAF_/, "", parts[i])
        sub(/ = /, " ", parts[i])
        print "const " trimmed(parts[i])
    }
}

function c_type(name) {
    if (name == "uint8_t") return "u8"
    if (name == "uint64_t") return "u64"
    if (name == "double") return "f64"
    if (name == "uint32_t") return "u32"
    if (name == "size_t") return "usize"
    if (name == "void") return "()"
    # the Rattle names of these have no prefix
    if (name ~ /^Leaf(Work|Entry|TwinPlace)$/) return substr(name, 5)
    return name
}

# a field or an argument: its name and type. An array among arguments is a pointer.
function c_declared(declaration, is_argument,    words, n, name, type, constant) {
    constant = sub(/const /, "", declaration)
    n = split(trimmed(declaration), words, " ")
    name = words[n]
    type = c_type(words[1])
    # (*name)[32], a pointer to keys
    if (name ~ /^\(\*[a-z_]+\)\[LEAF_KEY_SIZE\]$/) {
        gsub(/^\(\*|\).*$/, "", name)
        return name " " (constant ? "*const " : "*mut ") "[" type "; 32]"
    }
    if (sub(/^\*/, "", name)) type = (constant ? "*const " : "*mut ") type
    if (name ~ /\[LEAF_(KEY|TREE)_SIZE\]$/) {
        type = "[" type "; " (name ~ /TREE/ ? 24 : 32) "]"
        sub(/\[.*$/, "", name)
        if (is_argument) type = (constant ? "*const " : "*mut ") type
    }
    if (sub(/\[LEAF_CELL_MOST\]$/, "", name)) type = "[" type "; 100]"
    return name " " type
}

function c_arguments(list,    parts, n, i, all) {
    n = split(list, parts, ",")
    for (i = 1; i <= n; i++) all = all (i > 1 ? ", " : "") c_declared(parts[i], 1)
    return all
}

# ---- Rattle and Rust

function read_rust(    all, parts, n, i, name, type) {
    all = text
    while (next_match("#\\[repr\\(C\\)\\] (#\\[derive\\([^)]*\\)\\] )?pub struct [A-Za-z]+ \\{[^}]*\\}")) {
        name = found
        gsub(/.*pub struct | \{.*/, "", name)
        n = split(inside(found, "{", "}"), parts, ",")
        for (i = 1; i <= n; i++) if (parts[i] ~ /:/) print "field " name " " i " " rust_declared(parts[i])
    }
    text = all
    while (next_match("(extern \"C\"|pub) fn leaf_[a-z_]+(<'a>)?\\([^)]*\\)( -> [A-Za-z0-9]+)?")) {
        name = found
        gsub(/.* fn |(<'a>)?\(.*/, "", name)
        type = found ~ / -> / ? substr(found, index(found, " -> ") + 4) : "()"
        print "call " name "(" rust_arguments(inside(found, "(", ")")) ") " type
    }
    text = all
    while (next_match("pub const [A-Z_]+: u8 = [0-9]+;")) {
        gsub(/pub const |;/, "", found)
        sub(/: u8 =/, "", found)
        print "const " found
    }
    text = all
    if (!next_match("pub enum Refusal \\{[^}]*\\}")) return
    n = split(inside(found, "{", "}"), parts, ",")
    for (i = 1; i <= n; i++) if (parts[i] ~ /=/) print "const " constant_of(trimmed(parts[i]))
}

# a case of an enum, `ShortArea = 17`, as a constant: SHORT_AREA 17
function constant_of(variant,    name, i, c) {
    for (i = 1; i <= length(variant); i++) {
        c = substr(variant, i, 1)
        name = name (i > 1 && c ~ /[A-Z]/ ? "_" : "") toupper(c)
    }
    sub(/ = /, " ", name)
    return name
}

# a field or an argument: its name and type. A lent slice is a pointer and a length.
function rust_declared(declaration,    at, name, type, pointer) {
    at = index(declaration, ":")
    name = trimmed(substr(declaration, 1, at - 1))
    sub(/^pub /, "", name)
    type = trimmed(substr(declaration, at + 1))
    sub(/'a /, "", type)
    pointer = type ~ /^&mut / ? "*mut " : "*const "
    if (sub(/^&(mut )?/, "", type)) {
        if (type ~ /^\[([A-Za-z0-9]+|\[u8; 32\])\]$/) return name " " pointer inside(type, "[", "]") ", " name "_len usize"
        type = pointer type
    }
    if (type ~ /(^| )Key$/) sub(/Key$/, "[u8; 32]", type)
    return name " " type
}

function rust_arguments(list,    parts, n, i, all) {
    n = split(list, parts, ",")
    for (i = 1; i <= n; i++) if (parts[i] ~ /:/) all = all (all ? ", " : "") rust_declared(parts[i])
    return all
}
