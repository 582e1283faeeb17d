# Reads, in this order, crates.txt, every .antt file of specs/ and the sources of every crate, both as `rt fmt` lays them out. What a file alone tells
# to be a fault is said here; reach.awk judges the rest.

function fault(said) { print "trust: " said > "/dev/stderr"; faults++ }

# A fault of a source file, or of one contract: said once a contract of the file, or that contract, is found to be public.
function file_fault(said,    n) { n = ++file_faults[FILENAME]; fault_of_file[FILENAME, n] = said }
function call_fault(c, said,    n) { n = ++call_faults[c]; fault_of_call[c, n] = said }

# ---- names and places

function place_of(text) { sub(/^[ \t]+/, "", text); return FILENAME ":" FNR ": " text }

function crate_of(file) { sub(/^crates\//, "", file); sub(/\/.*/, "", file); return file }

function depth_of(text) { match(text, /^[ \t]*/); return RLENGTH }

function is_library(path) { return path ~ /^(Rattle\.std|Prim|mathlib|lib|borrow|native)\./ }

function words(text) { gsub(/[^A-Za-z0-9'_-]/, " ", text); return " " text " " }

# Whether a text has a name; of an operator, one of its parts.
function mentions(text, name,    part, n, k) {
    if (name !~ /[^A-Za-z0-9'_-]/) return index(words(text), " " name " ") > 0
    n = split(name, part, "◌")
    if (n < 2) return name ~ /[^A-Za-z0-9'_-]/ && index(text, name)
    for (k = 1; k <= n; k++) if (part[k] != "" && mentions(text, part[k])) return 1
    return 0
}

# ---- imports of a source file

# A name that a source file imports.
function bind(name, path, place,    n) {
    n = ++binds[FILENAME]
    bound_name[FILENAME, n] = name; bound_path[FILENAME, n] = path; bound_at[FILENAME, n] = place
}

# `ghost use PATH.{a, b as c};`; of `ghost use PATH as c;` a contract would name things by a path
function bind_all(text,    path, list, names, n, k, place) {
    place = place_of(text)
    sub(/^[ \t]*ghost use[ \t]+/, "", text); sub(/[ \t]*;.*/, "", text)
    path = text; sub(/[ \t{].*/, "", path)
    list = substr(text, length(path) + 1); sub(/^[ \t]*\{/, "", list); sub(/\}.*/, "", list)
    sub(/\.$/, "", path)
    if (is_library(path)) return
    if (path !~ /^Rattle\./) { file_fault("an import of unknown origin: " place); return }
    if (text !~ /\{/) { file_fault("an import that is not followed: " place); return }
    n = split(list, names, ",")
    for (k = 1; k <= n; k++) {
        sub(/.*[ \t]as[ \t]/, "", names[k]); gsub(/[ \t]/, "", names[k])
        if (names[k] != "") bind(names[k], path, place)
    }
}

# `use path::Name;`, `use path::{A, b};` or `use path;`: the types among the names are bound, functions and modules are not.
function take_all(text, place,    crate, list, names, n, k) {
    sub(/^[ \t]*/, "", text); gsub(/[ \t]+/, " ", text)
    if (text !~ /^use [A-Za-z0-9_:]+;/ && text !~ /^use [a-z0-9_:]+::\{ ?[A-Za-z0-9_]+(, ?[A-Za-z0-9_]+)*,? ?\};/) {
        file_fault("an import that is not followed: " place)
        return
    }
    sub(/^use /, "", text); sub(/;.*/, "", text)
    crate = text; sub(/::.*/, "", crate)
    if (crate == "std") return
    list = text; sub(/.*::/, "", list); gsub(/[{} ]/, "", list)
    n = split(list, names, ",")
    for (k = 1; k <= n; k++)
        if (names[k] ~ /^[A-Z]/) bind(names[k], "Rattle." (crate == "crate" ? crate_of(FILENAME) : crate) ".specs.declared." names[k], place)
}

# ---- an `impl`, and its functions

# What stands behind the parameters in angle brackets with which a text begins.
function behind_parameters(text,    k, c, open) {
    if (substr(text, 1, 1) != "<") return text
    for (k = 1; k <= length(text); k++) {
        c = substr(text, k, 1)
        if (c == "<") open++
        if (c == ">" && substr(text, k - 1, 1) != "-" && !--open) break
    }
    text = substr(text, k + 1); sub(/^[ \t]*/, "", text)
    return text
}

# The head of an `impl` has ended. Of one for a trait, `impl TRAIT for TYPE`, no function says `pub`; all of them can be called.
function begin_impl(    text) {
    sub(/[ \t]*\{.*/, "", heading)
    text = heading; sub(/^[ \t]*(unsafe[ \t]+)?impl[ \t]*/, "", text); text = behind_parameters(text)
    of_trait = match(text, /[ \t]for[ \t]/)
    if (of_trait) {
        trait_impls++
        trait_file[trait_impls] = FILENAME; trait_head[trait_impls] = text; trait_at[trait_impls] = heading_at
        trait_name[trait_impls] = substr(text, 1, RSTART - 1); sub(/[ \t]*<.*/, "", trait_name[trait_impls]); sub(/.*::/, "", trait_name[trait_impls])
        text = substr(text, RSTART + RLENGTH); sub(/[ \t]where[ \t].*/, "", text); sub(/<.*/, "", text); sub(/^.*[^A-Za-z0-9_]/, "", text)
    }
    sub(/[^A-Za-z0-9_].*/, "", text)
    impl = text; heading = ""
}

# A function of which a contract is read. indent is what its line begins with.
function begin_call(name) {
    indent = substr($0, 1, depth_of($0))
    calls++; call_file[calls] = FILENAME; call_name[calls] = name
    call[calls] = FILENAME ":" FNR ": " (impl == "" ? "" : impl "::") name
    if (in_impl && of_trait) { impl_of[calls] = trait_impls; members[trait_impls]++ }
    else if (impl != "") method_of[calls] = crate_of(FILENAME) ": " impl
    inside = 1; contract = 0
}

# A line of a contract; clause says whether its first clause has begun, or it is of the signature.
function read_contract(c, text, place, clause) {
    if (text ~ /⟦|⟧/ || index(words(text), " ghost ")) call_fault(c, "a public contract has a bracket or a ghost value: " place)
    else if (text ~ /::/ || (clause && text ~ /[A-Z][A-Za-z0-9_']*\.[A-Za-z]/)) call_fault(c, "a public contract names something by a path: " place)
    if (text ~ /\{-/) call_fault(c, "a comment that is not read: " place)
    call_text[c] = call_text[c] " " text
    if (clause) { sub(/[ \t]--.*/, "", text); contract_text[c] = contract_text[c] " " text }
}

# What a source file has left open at its end.
function end_source() {
    if (inside) call_fault(calls, "a contract without an end: " call[calls])
    if (pending taking != "") fault("an import without an end: " pending taking)
    if (heading law == "") return
    fault("an impl without an end: " heading_at)
    members[trait_impls]++
}

# The functions of the trait impls get what stands in the `impl` beside them: its head, the law of their name, which is an `ensures`, and what else it
# has. One without a function is a call of its own, that promises nothing.
function end_impls(    c, i, k) {
    for (i = 1; i <= trait_impls; i++) {
        if (members[i]) continue
        calls++; call_file[calls] = trait_file[i]; impl_of[calls] = i
        call_name[calls] = trait_name[i]; call[calls] = trait_at[i]
    }
    for (c = 1; c <= calls; c++) {
        if (!(c in impl_of)) continue
        i = impl_of[c]
        read_contract(c, trait_head[i], trait_at[i], 0)
        for (k = 1; k <= beside[i]; k++) read_contract(c, beside_text[i, k], beside_at[i, k], 0)
        for (k = 1; k <= laws[i, call_name[c]]; k++) read_contract(c, law_text[i, call_name[c], k], law_at[i, call_name[c], k], 1)
        if (laws[i, call_name[c]]) promises[c] = 1
    }
}

# ---- definitions of a call

# A signature that has ended, of crates/model/specs, with `pub`, and no field or constructor. Its names are definitions of a call where it answers
# `Filled` or a `Result`: where what stands after its last arrow that is not in parentheses, or after the colon, begins with that word. One that takes
# such an answer reads it, and is none.
function signature(    names, answer, part, n) {
    names = signed; sub(/[ \t]:[ \t].*/, "", names); sub(/.*pub[ \t]/, "", names)
    answer = signed; sub(/[ \t]:[ \t]/, "\n", answer); sub(/^[^\n]*\n/, "", answer)
    while (gsub(/\([^()]*\)|\{[^{}]*\}/, "", answer)) { }
    signed = ""
    n = split(answer, part, "→")
    if (part[n] !~ /^[ \t]*(Filled|Result)([ \t]|$)/) return
    while (--n > 0) if (part[n] ~ /^[ \t]*(Filled|Result)([ \t]|$)/) return
    for (n = split(names, part, " "); n; n--) definition[++definitions] = part[n]
}

FILENAME == "crates.txt" { sub(/#.*/, ""); if (sub(/:.*/, "")) crates[++crate_count] = $1; next }

# ---- a definition file

FNR == 1 && signed != "" { signature() }
FILENAME ~ /\.antt$/ {
    if (FNR == 1) files[++file_count] = FILENAME
    lines[FILENAME] = FNR
    place = place_of($0)
    sub(/^[ \t]*--.*/, ""); sub(/[ \t]--[ \t].*/, "")
    if (/\{-/) fault("a comment that is not read: " place)
}
FILENAME ~ /\/specs\/Lib\.antt$/ {
    if (/^pub mod [A-Za-z0-9'_-]+[ \t]*$/) { file = FILENAME; sub(/Lib\.antt$/, $3 ".antt", file); rank[file] = FNR }
    else if (/[^A-Za-z0-9'_-]proofs([^A-Za-z0-9'_-]|$)/) fault("what is promised may name nothing of proofs/: " place)
    else if (/[^ \t]/) fault("a Lib has `pub mod NAME` alone: " place)
    next
}
FILENAME ~ /\.antt$/ {
    stated[FILENAME, FNR] = $0
    if (/^[ \t]*(pub[ \t]+)?use[ \t]/) {
        path = $0; sub(/^.*use[ \t]+/, "", path)
        if (path !~ /^Rattle\./ && !is_library(path)) fault("an import of unknown origin: " place)
    }
    for (rest = $0; match(rest, /Rattle\.[^ \t;(){},]*/); rest = substr(rest, RSTART + RLENGTH)) {
        if (is_library(substr(rest, RSTART, RLENGTH) ".")) continue
        imports++
        import_from[imports] = FILENAME; import_path[imports] = substr(rest, RSTART, RLENGTH); import_at[imports] = place
    }
    if (FILENAME !~ /^crates\/model\//) next
    if (!/[^ \t]/) next
    if (depth_of($0) > signed_depth) { if (signed != "") signed = signed " " $0; if (signed != "" || in_type) next }
    if (signed != "") signature()
    in_type = /^[ \t]*(pub[ \t]+)?(data|record)[ \t]/
    if (!in_type && /^[ \t]*([a-z]+[ \t]+)*pub[ \t].*[ \t]:([ \t]|$)/) signed = $0 " "
    signed_depth = depth_of($0)
    next
}

# ---- a source file

FNR == 1 {
    end_source()
    inside = 0; in_impl = 0; impl = ""; heading = ""; law = ""; pending = ""; taking = ""
}
{ place = place_of($0); sub(/^[ \t]*\/\/.*/, ""); sub(/[ \t]\/\/.*/, "") }
/\/\*/ { file_fault("a comment that is not read: " place) }
/^[ \t]*ghost use / || pending != "" {
    pending = pending == "" ? $0 : pending " " $0
    if (pending ~ /;/) { bind_all(pending); pending = "" }
    next
}
/^[ \t]*use / || taking != "" {
    taking = taking == "" ? $0 : taking " " $0
    if (taking ~ /;/) { take_all(taking, place); taking = "" }
    next
}
/^[ \t]*pub use / {
    passes++
    pass_name[passes] = $3; sub(/;.*/, "", pass_name[passes])
    pass_file[passes] = FILENAME; pass_at[passes] = place; pass_read[passes] = /^pub use [a-z0-9_]+::[a-z0-9_]+;$/
    if (/^pub use [a-z0-9_]+::[A-Z][A-Za-z0-9_]*;$/) pass_type[passes] = $3
}
/^[ \t]*pub mod / { name = $3; sub(/;.*/, "", name); public_module[FILENAME, name] = 1 }
/^[ \t]*pub (struct|enum) / {
    name = $3; sub(/[^A-Za-z0-9_].*/, "", name)
    types++; type_name[types] = name; type_crate[types] = crate_of(FILENAME); type_at[types] = place; type_file[types] = FILENAME
}
/^[ \t]*(pub(\([a-z ]*\))?[ \t]+)?(unsafe[ \t]+)?trait / {
    name = $0; sub(/.*trait[ \t]+/, "", name); sub(/[^A-Za-z0-9_].*/, "", name)
    own_trait[name] = 1
}
/^[ \t]*(unsafe[ \t]+)?impl[ \t<]/ || heading != "" {
    if (heading == "") { impl_depth = depth_of($0); heading_at = place }
    heading = heading == "" ? $0 : heading " " $0
    if (/\{/) { begin_impl(); in_impl = !/\}[ \t]*$/ }
    if (/\{/ && !in_impl) impl = ""
    next
}
in_impl && /\}[ \t]*$/ && depth_of($0) == impl_depth { in_impl = 0; impl = "" }

# What a trait impl has beside its functions: their laws, and more.
in_impl && of_trait && law == "" && !inside && depth_of($0) == impl_depth + 4 && /^[ \t]*(ghost|type) / {
    law = "beside"; law_open = 0
    if (match($0, /^[ \t]*ghost [a-z0-9_]+_gives =/)) {
        law = substr($0, 1, RLENGTH); sub(/_gives =$/, "", law); sub(/^[ \t]*ghost /, "", law)
        $0 = substr($0, RLENGTH + 1)
    }
}
in_impl && law != "" {
    if (law == "beside") { n = ++beside[trait_impls]; beside_text[trait_impls, n] = $0; beside_at[trait_impls, n] = place }
    else { n = ++laws[trait_impls, law]; law_text[trait_impls, law, n] = $0; law_at[trait_impls, law, n] = place }
    sub(/[ \t]--.*/, ""); law_open += gsub(/\{/, "{") - gsub(/\}/, "}")
    if (law_open <= 0 && /;[ \t]*$/) law = ""
    next
}

# A function that can be called, with its contract: what stands from its name to its body.
inside && /^[ \t]*([a-z].* )?fn / { call_fault(calls, "a contract without an end: " call[calls]); inside = 0 }
/^[ \t]*pub .*fn / || (in_impl && of_trait && depth_of($0) == impl_depth + 4 && /^[ \t]*([a-z].* )?fn /) {
    name = $0; sub(/.*[ \t]fn[ \t]+/, "", name); sub(/[^A-Za-z0-9_].*/, "", name)
    begin_call(name)
}
inside {
    if (/^[ \t]*(requires|ensures)/) contract = 1
    if (/^[ \t]*requires/) asks[calls] = 1
    if (/^[ \t]*ensures/) promises[calls] = 1
    read_contract(calls, $0, place, contract)
    if ($0 == indent "{" || (!contract && /[{;]$/)) inside = 0
}

END {
    end_source()
    if (signed != "") signature()
    end_impls()
}
