# For the scripts that read src/: the paths that a `use` item names. use_paths takes its text without `use` and `;` and fills path[1..n]
# with the whole paths (`a::b::c` for `a::b::{c, d as e}`, `a::b` for `a::b::{self}`) and name[1..n] with the names that they get; n is
# its result.
function use_paths(text, path, name) {
    use_count = 0
    use_spread("", text, path, name)
    return use_count
}
function use_spread(prefix, text, path, name,    i, c, depth, from) {
    depth = 0
    from = 1
    for (i = 1; i <= length(text) + 1; i++) {
        c = substr(text, i, 1)
        if (c == "{") depth++
        if (c == "}") depth--
        if (c == "" || (c == "," && depth == 0)) {
            use_item(prefix, substr(text, from, i - from), path, name)
            from = i + 1
        }
    }
}
function use_item(prefix, text, path, name,    as, part, n) {
    gsub(/[ \t\n]+/, " ", text)
    sub(/^ /, "", text)
    sub(/ $/, "", text)
    if (text == "") return
    if (text ~ /\{/) {
        as = text
        sub(/\{.*/, "", as)
        sub(/^[^{]*\{/, "", text)
        sub(/\}$/, "", text)
        use_spread(prefix as, text, path, name)
        return
    }
    as = ""
    if (text ~ / as /) {
        as = text
        sub(/.* as /, "", as)
        sub(/ as .*/, "", text)
    }
    text = prefix text
    sub(/::self$/, "", text)
    n = split(text, part, "::")
    path[++use_count] = text
    name[use_count] = as == "" ? part[n] : as
}
