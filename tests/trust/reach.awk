# Which definition files the public contracts and demand 3 reach, of what read.awk has read. Prints the trust list; with why=FILE, a shortest chain of
# `use` lines that leads to FILE. public has the public crates, demand the file of demand 3.
# A contract reaches the files from which its names are imported and the types that it names; a file reaches all that it imports; a type that a call
# reaches has its public methods, which are calls too, as are the functions of the trait impls that name it. Where the text leaves a doubt, more is
# reached.

# The file that an import names, or the type, as `crate: Name`; "" where there is none.
function target(path, place,    crate, rest, part, n, k, file) {
    sub(/^Rattle\./, "", path); sub(/\.+$/, "", path)
    crate = path; sub(/\..*/, "", crate)
    rest = substr(path, length(crate) + 2)
    if (rest ~ /^proofs(\.|$)/) { fault("what is promised may name nothing of proofs/: " place); return "" }
    if (sub(/^specs\.declared\./, "", rest)) {
        sub(/\.TheVariants$/, "", rest); sub(/.*\./, "", rest)
        return crate ": " rest
    }
    if (sub(/^specs\./, "", rest))
        for (n = split(rest, part, "."); n; n--) {
            file = "crates/" crate "/specs"
            for (k = 1; k <= n; k++) file = file "/" part[k]
            if ((file ".antt") in lines) return file ".antt"
        }
    fault("no definition file for the import: " place)
    return ""
}

# ---- which calls are public

# Whether a source file's module, and those above it, are public.
function is_public(file,    name, above) {
    if (file ~ /\/src\/lib\.rt$/) return 1
    name = file; sub(/.*\//, "", name); sub(/\.rt$/, "", name)
    above = file; sub(/\/[^\/]*$/, "", above)
    above = above ~ /\/src$/ ? above "/lib.rt" : above ".rt"
    return (above, name) in public_module && is_public(above)
}

# Whether a public import passes on a type of a public module of its own file, which that module declares. Its methods count as calls there.
function passes_type(k,    part, file, t) {
    if (!(k in pass_type)) return 0
    split(pass_type[k], part, /::|;/)
    if (!((pass_file[k], part[1]) in public_module) || !is_public(pass_file[k])) return 0
    file = pass_file[k]
    if (!sub(/\/src\/lib\.rt$/, "/src/", file)) sub(/\.rt$/, "/", file)
    for (t = 1; t <= types; t++) if (type_file[t] == file part[1] ".rt" && type_name[t] == part[2]) return 1
    return 0
}

# Whether a trait impl of a crate is of a type that the crate shows.
function is_shown(i,    t) {
    for (t = 1; t <= types; t++)
        if (type_crate[t] == crate_of(trait_file[i]) && mentions(trait_head[i], type_name[t]) && is_public(type_file[t])) return 1
    return 0
}

# The public crates pass on functions of other crates; all public functions of those count as calls, and those of trait impls of their types.
function find_calls(    part, n, k, c, crate, name) {
    for (n = split(public, part, " "); n; n--) is_public_crate[part[n]] = with_calls[part[n]] = 1
    for (k = 1; k <= passes; k++) {
        if (!(crate_of(pass_file[k]) in is_public_crate) || passes_type(k)) continue
        if (!pass_read[k]) { fault("a public import is not followed: " pass_at[k]); continue }
        crate = pass_name[k]; sub(/::.*/, "", crate)
        with_calls[crate] = has_call[crate_of(pass_file[k])] = passed[pass_name[k]] = 1
    }
    for (k = 1; k <= passes; k++)
        if (crate_of(pass_file[k]) in with_calls && !(crate_of(pass_file[k]) in is_public_crate)) fault("a public import is not followed: " pass_at[k])
    for (c = 1; c <= calls; c++) {
        crate = crate_of(call_file[c]); name = crate "::" call_name[c]
        if (c in method_of || c in impl_of) method[call[c]] = c
        if (!(crate in with_calls)) continue
        if (!(c in impl_of ? is_shown(impl_of[c]) : is_public(call_file[c]))) continue
        queue[++roots] = call[c]; root[call[c]] = c
        if (!(c in impl_of)) has_call[crate] = has_call[name] = 1
        if (crate in is_public_crate || (!(c in impl_of) && name in passed)) cites = cites contract_text[c]
    }
    for (k = 1; k <= passes; k++)
        if (pass_name[k] in passed && !(pass_name[k] in has_call)) fault("no public function for the import: " pass_at[k])
    for (n = split(public, part, " "); n; n--) if (!(part[n] in has_call)) fault("no public function in crates/" part[n])
}

# ---- what is reached

function edge(node, to, place,    n) {
    if (to == "") return
    n = ++edges[node]; edge_to[node, n] = to; edge_at[node, n] = place
}

# A method is reached from its type; a function of a trait impl from each type that the head of the `impl` names, the trait's arguments too.
function find_methods(    c, i, k, file, head) {
    for (c = 1; c <= calls; c++) {
        if (c in method_of) edge(method_of[c], call[c], call[c])
        if (!(c in impl_of)) continue
        i = impl_of[c]; file = trait_file[i]; head = trait_head[i]
        for (k = 1; k <= types; k++)
            if ((type_crate[k] == crate_of(file) || head ~ /::/) && mentions(head, type_name[k]))
                edge(type_crate[k] ": " type_name[k], call[c], trait_at[i])
        for (k = 1; k <= binds[file]; k++)
            if (bound_path[file, k] ~ /\.specs\.declared\./ && mentions(head, bound_name[file, k]))
                edge(target(bound_path[file, k], bound_at[file, k]), call[c], trait_at[i])
    }
}

# Judges a public contract, and finds what it reaches.
function follow(c,    file, crate, k) {
    if (c in followed) return
    followed[c] = 1
    file = call_file[c]; crate = crate_of(file)
    if (c in asks) fault("a public call asks something of its caller: " call[c])
    if (!(c in promises)) fault("a public call promises nothing: " call[c])
    if (c in impl_of && trait_name[impl_of[c]] in own_trait) fault("a trait of the repository is not followed: " call[c])
    for (k = 1; k <= call_faults[c]; k++) fault(fault_of_call[c, k])
    for (; file_faults[file]; file_faults[file]--) fault(fault_of_file[file, file_faults[file]])
    for (k = 1; k <= binds[file]; k++)
        if (mentions(call_text[c], bound_name[file, k])) edge(call[c], target(bound_path[file, k], bound_at[file, k]), bound_at[file, k])
    for (k = 1; k <= types; k++)
        if (type_crate[k] == crate && mentions(call_text[c], type_name[k])) edge(call[c], crate ": " type_name[k], type_at[k])
}

# Marks all that is reached from queue[1 .. count]. Of demand 3 the types' methods are no part.
function reach(mark, count,    at, k, node, to) {
    for (at = 1; at <= count; at++) {
        node = queue[at]
        if (node in root) follow(root[node])
        if (node in method) follow(method[node])
        for (k = 1; k <= edges[node]; k++) {
            to = edge_to[node, k]
            if ((mark, to) in reached || (to in method && mark != "calls")) continue
            reached[mark, to] = 1; from[mark, to] = node; by[mark, to] = edge_at[node, k]
            queue[++count] = to
            if (!(to in method)) nodes[to] = 1
        }
    }
}

# A definition of a call that a file of demand 3 alone names, an import being a naming, and that no contract of a public call cites.
function judge_demand(    f, k, n) {
    for (f = 1; f <= file_count; f++) {
        if (!(("demand", files[f]) in reached) || ("calls", files[f]) in reached) continue
        for (k = 1; k <= definitions; k++) {
            if (mentions(cites, definition[k])) continue
            for (n = 1; n <= lines[files[f]]; n++) if (mentions(stated[files[f], n], definition[k])) break
            if (n <= lines[files[f]]) fault("demand 3 names `" definition[k] "`, which no public contract cites: " files[f] ":" n)
        }
    }
}

# ---- what is printed

# Ends, where there are faults.
function judged() {
    if (!faults) return
    print "trust: " faults (faults == 1 ? " fault" : " faults") > "/dev/stderr"
    exit 1
}

function chain(mark, node) {
    if (!((mark, node) in from)) { print node; return }
    chain(mark, from[mark, node])
    print "  " by[mark, node]
}

function commas(n) { return n < 1000 ? n "" : commas(int(n / 1000)) "," substr(1000 + n % 1000, 2) }

# The next file of a crate that is not shown yet, in the order of its Lib; "" after the last.
function next_file(crate,    k, file, best) {
    best = ""
    for (k = 1; k <= file_count; k++) {
        file = files[k]
        if (crate_of(file) != crate || file in shown || !(file in nodes)) continue
        if (best == "" || (file in rank && (!(best in rank) || rank[file] < rank[best]))) best = file
    }
    if (best != "") shown[best] = 1
    return best
}

# The same of its types, by their names.
function next_type(crate,    node, best) {
    best = ""
    for (node in nodes) if (index(node, crate ": ") == 1 && !(node in shown) && (best == "" || node < best)) best = node
    if (best != "") shown[best] = 1
    return best
}

END {
    for (k = 1; k <= imports; k++) edge(import_from[k], target(import_path[k], import_at[k]), import_at[k])
    find_calls()
    find_methods()
    if (!(demand in lines)) fault("there is no " demand)
    reach("calls", roots)
    queue[1] = demand; reached["demand", demand] = 1; nodes[demand] = 1
    reach("demand", 1)
    judge_demand()
    judged()

    if (why != "") {
        if (("crates/" why) in lines) why = "crates/" why
        if (!(why in nodes)) { print why " is not in the trust list"; exit 1 }
        chain((("calls", why) in reached) ? "calls" : "demand", why)
        exit 0
    }

    print ""
    print "| Definitions, in `crates/` | For all calls | For demand 3 |"
    print "|---|--:|--:|"
    for (c = 1; c <= crate_count; c++)
        while ((file = next_file(crates[c])) != "") {
            n = lines[file]; count++; all += n
            a = ("calls", file) in reached ? n : ""; for_calls += a
            b = ("demand", file) in reached ? n : ""; for_demand += b
            print "| `" substr(file, 8) "` | " a " | " b " |"
        }
    print "| **together** | **" commas(for_calls) "** | **" commas(for_demand) "** |"
    print ""
    print commas(all) " lines in " count " files; " commas(all - for_calls) " of the lines are for demand 3 alone."
    print "The types that they name are declared in the source:"
    print ""
    for (c = 1; c <= crate_count; c++) {
        list = ""
        while ((type = next_type(crates[c])) != "") list = list (list == "" ? "" : ", ") "`" substr(type, length(crates[c]) + 3) "`"
        if (list != "") print "- `" crates[c] "`: " list
    }
    print ""
    for (node in nodes) if (!(node in shown)) fault("in no crate that crates.txt lists: " node)
    judged()
}
