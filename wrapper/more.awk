# Says more of the token at `place` than the rule that it breaks, as lines: a place and a sentence that belongs there, or `here` and
# a sentence with its name and both counts. It reads the tokens of the text, one a line, each with its line, its offset and colons before
# it; `types` is 1 where it is a text of types. A text that breaks the rule is a program but for rules 11 and above. Where a
# sentence could be wrong there is none. A line without a token has a place where a name begins a line. In place of a rule stand `missing`, `sides`, `rigid`, `rename`, `blank`, `warn`, `file52` and
# `file58`, which say what is told below.

BEGIN { is_broken = rule == 2 || rule == "blank" }

function is_name(i) { return word[i] ~ /^[a-z_]/ && word[i] !~ /^(data|let|in|case|of)$/ }
function is_atom(i) { return is_name(i) || word[i] ~ /^[A-Z]/ || word[i] ~ /^-?[0-9]/ }

# Where the bracket that opens at i is closed.
function closing(i, depth) {
    for (depth = 1; depth && i < words; ) {
        i++
        depth += word[i] == "(" ? 1 : word[i] == ")" ? -1 : 0
    }
    return i
}

# How many atoms follow the one at i: names, constructors, integers and brackets.
function atoms_after(i, count) {
    if (word[i] == "(") i = closing(i)
    for (i++; is_atom(i) || word[i] == "("; i++) {
        if (word[i] == "(") i = closing(i)
        count++
    }
    return count + 0
}

# How many arguments the head at i has: none where it is an argument itself. What stands alone in brackets is a head where these
# are one.
function arguments(i) {
    if (word[i - 1] == "(" && word[i + 1] == ")") return arguments_of_bracket(i - 1)
    return is_atom(i - 1) || word[i - 1] == ")" ? 0 : atoms_after(i)
}
function arguments_of_bracket(i) {
    if (word[i - 1] == "(" && word[closing(i) + 1] == ")") return arguments_of_bracket(i - 1)
    return is_atom(i - 1) || word[i - 1] == ")" ? 0 : atoms_after(i)
}

# How many names follow the one at i.
function names_after(i, count) {
    while (is_name(++i)) count++
    return count + 0
}

# Whether the token at i is a name that a group binds.
function is_bound(i) {
    return !starts[i] && word[i + 1] == "=" && (word[i - 1] == "let" || word[i - 1] == ";")
}

# Whether the word at i is declared there as a constructor, and with how many fields.
function is_declared(i) {
    return starts[i - 1] && word[i - 1] == "data" || in_type[i] && (word[i - 1] == "=" || word[i - 1] == "|")
}
function fields(i) { return in_type[i] ? atoms_after(i) : word[i + 1] + 0 }

# The first declaration of the word at p as a constructor, as a function, or behind the keyword that stands before it.
function first_constructor(p, i) {
    for (i = 1; i < p; i++) if (is_declared(i) && word[i] == word[p]) return i
}
function first_function(p, i) {
    for (i = 1; i < p; i++) if (starts[i] && word[i] == word[p]) return i
}
function first_behind(p, i) {
    for (i = 2; i < p; i++) if (starts[i - 1] && word[i - 1] == word[p - 1] && word[i] == word[p]) return i
}

# The first of the name at p in its group, or in its list of parameters or patterns.
function first_in_list(p, i, found) {
    if (is_bound(p)) {
        for (i = p - 1; i && word[i] != "let"; i--) if (is_bound(i) && word[i] == word[p]) found = i
    } else {
        for (i = p - 1; (is_atom(i) || word[i] ~ /^[()]$/) && !starts[i]; i--) if (word[i] == word[p]) found = i
    }
    return found
}

# The first alternative of the case at p that fits what the one at p fits.
function first_alternative(p, i, depth, same, found) {
    for (i = p - 1; i && (depth || word[i] != "{"); i--) {
        depth += word[i] == "}" ? 1 : word[i] == "{" ? -1 : 0
        same = word[p] ~ /^[A-Z]/ ? word[i] == word[p] : word[i] ~ /^-?[0-9]/ && word[i] + 0 == word[p] + 0
        if (!depth && same && (word[i - 1] == "{" || word[i - 1] == ";")) found = i
    }
    return found
}

# How many fields the constructor at p is declared with, or nothing where it isn't declared exactly once.
function declared_fields(p, i, count, last) {
    for (i = 1; i <= words; i++) {
        if (!is_declared(i) || word[i] != word[p]) continue
        count++
        last = i
    }
    return count == 1 ? fields(last) : ""
}

function counted(count, what) { return count " " what (count == 1 ? "" : "s") }

function takes(p, wanted, what) {
    if (wanted == "" || wanted == arguments(p)) return
    print "here " word[p] " takes " counted(wanted, "argument") ", and here it has " counted(arguments(p), "argument")
}

function at_most(p, count, what) {
    if (count > 12) print "here " (is_atom(p) ? word[p] " has " : "here are ") counted(count, what) ", and at most 12 are allowed"
}

# The equation at p, and the first one of its function, by their patterns.
function equations(p, i) {
    print "here here " word[p] " has " counted(atoms_after(p), "pattern") ", and in its first equation it has " atoms_after(i)
}

function first(i) { if (i) print at[i], "the first one is here" }
function at_place(i, text) { if (i) print at[i], text }

# The bracket that is open before p, where a token stands at p that can't stand in it, the text ends there, or a name begins the line
# of p behind a `;`, as a declaration does.
function open_bracket(p, i, depth, begins) {
    for (i = 1; i < p || i == p && p <= words; i++) {
        if (starts[i] && depth) {
            if (p <= words && line_of[i] == line_of[p]) begins = 1
            else depth = 0
        }
        if (i == p) break
        if (word[i] ~ /^[({]$/) open[++depth] = i
        if (word[i] ~ /^[)}]$/ && depth) depth--
    }
    if (!depth) return 0
    i = open[depth]
    if (begins || p > words || word[p] == "data" || word[p] == "=") return i
    return word[i] == "(" && (word[p] == ";" || word[p] == "}") || word[i] == "{" && word[p] == ")" ? i : 0
}

# The token of the last line before that of p, where p is on a line that goes on with what was before.
function end_of_line_before(p, i) {
    for (i = p; i > 1 && !begins_line[i]; ) i--
    return i > 1 && word[i - 1] != ";" ? i - 1 : 0
}

# Where the case begins whose alternative is at p, and where its first alternative stands.
function case_of(p, i, depth) {
    for (i = p - 1; i && (depth || word[i] != "{"); i--) depth += word[i] == "}" ? 1 : word[i] == "{" ? -1 : 0
    return i
}

# The next alternative of the case behind that at i, or 0.
function next_alternative(i, depth) {
    for (i++; i <= words; i++) {
        if (word[i] == "(" || word[i] == "{") depth++
        if (word[i] == ")" || word[i] == "}") if (--depth < 0) return 0
        if (word[i] == "let") depth++
        if (word[i] == "in") depth--
        if (!depth && word[i] == ";") return word[i + 1] == "}" ? 0 : i + 1
    }
    return 0
}

# Where the alternative at i ends: the place of what stands behind it.
function end_of_alternative(i, depth) {
    for (; i <= words; i++) {
        if (word[i] == "(" || word[i] == "{" || word[i] == "let") depth++
        if (word[i] == "in") depth--
        if (word[i] == ")" || word[i] == "}") if (--depth < 0) return i
        if (!depth && word[i] == ";") return i
    }
    return i
}

# What the case at p, the first of its patterns, doesn't take, by the type that declares this constructor.
function missing(p, i, n, there, list, t) {
    if (word[p] !~ /^[A-Z]/) { print "here integers have no end: a case of them needs a default, as `_ -> ..`"; return }
    for (i = p; i; i = next_alternative(i)) there[word[i]] = 1
    for (i = 1; i <= words; i++) if (is_declared(i) && word[i] == word[p]) t = i
    while (t > 1 && !starts[t]) t--
    if (!t) return
    for (i = t; i <= words && word[i] != ";"; i++) if (is_declared(i) && !(word[i] in there)) { list = list (n++ ? ", " : "") word[i] }
    if (n) print "here the case has no alternative for " list
}

# Names that are bound by what begins at i and ends before `end`: parameters, names of groups and fields of patterns.
function bound_in(i, end, set, j) {
    for (j = i; j < end; j++) {
        if (word[j] == "\\") for (j++; j < end && word[j] != "->"; j++) set[word[j]] = 1
        if (word[j - 1] == "let" || word[j - 1] == ";" && word[j + 1] ~ /^(=|[a-z_].*)$/) {
            if (is_name(j)) set[word[j]] = 1
            while (is_name(j + 1)) set[word[++j]] = 1
        }
        if (word[j] == "->") bound_by_pattern(j, set)
    }
}
function bound_by_pattern(j, set) { for (j--; j && is_atom(j); j--) if (is_name(j)) set[word[j]] = 1 }

# Of the lambda or the local function at p: how many parameters it has, and the names that it uses of those around it.
function counts(p, end, own, i, j, depth, inner, outer, used, list, n) {
    if (word[p] == "\\") {
        for (i = p + 1; word[i] != "->"; i++) { own++; inner[word[i]] = 1 }
        depth = 1
        for (end = i; end <= words && depth; ) { end++; depth += word[end] == "(" ? 1 : word[end] == ")" ? -1 : 0 }
    } else {
        for (i = p + 1; is_name(i); i++) { own++; inner[word[i]] = 1 }
        end = end_of_alternative(i)
    }
    bound_in(i, end, inner)
    for (j = p; j > 1 && !starts[j]; ) j--
    for (depth = j + 1; is_name(depth); depth++) outer[word[depth]] = 1
    bound_in(j, p, outer)
    for (; i < end; i++) {
        if (!is_name(i) || !(word[i] in outer) || (word[i] in used)) continue
        if (word[i] in inner) return
        used[word[i]] = 1
        list = list (n++ ? ", " : "") word[i]
    }
    if (own + n > 12) print "here it has " counted(own, "parameter") " of its own, and uses " counted(n, "name") " of those around it: " list
}

# What the place of rule 83 is: the head of an application, a pattern, or the name of a function with a signature.
function role(p) {
    if (starts[p]) return "signature"
    if (word[p - 1] ~ /^[{;]$/ && word[next_arrow(p)] == "->") return "pattern"
    return "head"
}
function next_arrow(i) { for (i++; is_atom(i); ) i++; return i }

# Where the signature of the function around p begins; its function's name and its variables.
function signature_of(p, i, name) {
    for (i = p; i > 1 && !starts[i]; ) i--
    name = word[i]
    for (i = 1; i <= words; i++) if (starts[i] && word[i] == "sig" && word[i + 1] == name) return i
    return 0
}
function rigid(p, i, seen) {
    if ((i = signature_of(p)) == 0) return
    printf "%s", word[i + 1]
    for (; i <= words && word[i] != ":"; ) i++
    for (; i <= words && word[i] != ";"; i++) if (is_name(i) && !(word[i] in seen)) { seen[word[i]] = 1; printf " %s", word[i] }
}
function places_in_signature(p, i) {
    for (i = signature_of(p); i && word[i] != ":" && i <= words; ) i++
    for (; i && i <= words && word[i] != ";"; i++) if (word[i] == name_sought) printf "%s ", at[i]
}

# What of the declaration around p to leave out, so that the rest may be looked at: its body, or where the mistake stands before
# that, all of it; what stands in its place, and the name that is gone.
function blank(p, i, begin, equals, end) {
    # A declaration that begins where a bracket of the one before it is open: that one goes.
    if (is_syntax && (i = open_bracket(p)) != 0) p = i
    for (begin = p; begin > 1 && !starts[begin]; ) begin--
    for (i = begin; i <= words && word[i] != "=" && word[i] != ";"; ) i++
    equals = word[begin] != "data" && word[i] == "=" && (i < p || is_syntax && i == p) ? i : 0
    for (end = p; end <= words && !(word[end] == ";" && (end == words || at[end + 1] in begins_text || starts[end + 1])); ) end++
    if (end > words) return
    if (equals) print at[equals] + 1, at[end], 1
    else print at[begin], at[end] + 1, word[begin] == "data" ? word[begin + 1] : word[begin]
}

# The text of tokens from i to before `end`.
function text_of(i, end, text) { for (; i < end; i++) text = text " " word[i]; return text }
function uses(i, end, name) { for (; i < end; i++) if (word[i] == name) return 1; return 0 }

# An alternative that gives what the default gives.
function warn_of_default(brace, i, last, arrow, body, end, j, free) {
    for (i = brace + 1; i; i = next_alternative(i)) last = i
    if (!is_name(last) || word[last + 1] != "->") return
    body = text_of(last + 2, end_of_alternative(last))
    if (word[last] != "_" && uses(last + 2, end_of_alternative(last), word[last])) return
    for (i = brace + 1; i && i != last; i = next_alternative(i)) {
        arrow = next_arrow(i)
        end = end_of_alternative(i)
        if (word[arrow] != "->" || text_of(arrow + 1, end) != body) continue
        free = 1
        for (j = i; j < arrow; j++) if (is_name(j) && uses(arrow + 1, end, word[j])) free = 0
        if (free) at_place(i, "this alternative gives what the default gives")
    }
}

# An integer with `-` behind a name, where the function takes fewer arguments than it has here.
function warn_of_minus(i, head, name) {
    if (!(is_name(i - 1) || word[i - 1] == ")" || word[i - 1] ~ /^[0-9]/)) return
    for (head = i - 1; ; head--) {
        if (word[head] == ")") head = opening(head)
        if (!(is_atom(head - 1) || word[head - 1] == ")")) break
    }
    name = word[head]
    if (name ~ /^(add|sub|mul|quot|rem|eq|lt)$/ || name ~ /^[A-Z]/) return
    if ((name in parameters) && !is_local(head) && atoms_after(head) <= parameters[name]) return
    if (word[i - 1] == ")") at_place(i, "`" word[i] "` is an argument of its own here; a difference is `sub (..) " substr(word[i], 2) "`")
    else at_place(i, "`" word[i - 1] " " word[i] "` are two arguments here; a difference is `sub " word[i - 1] " " substr(word[i], 2) "`")
}
function opening(i, depth) {
    for (depth = 1; depth && i > 1; ) { i--; depth += word[i] == ")" ? 1 : word[i] == "(" ? -1 : 0 }
    return i
}
# Whether the name at i is bound in its declaration.
function is_local(i, j, set) {
    for (j = i; j > 1 && !starts[j]; ) j--
    for (j++; is_name(j); j++) if (word[j] == word[i]) return 1
    bound_in(j, i, set)
    return word[i] in set
}

# An equation that is never tried to its end, since an earlier one of its function takes all that it takes. Of a function with
# more than 100 equations only these are looked at.
function warn_of_equation(i, nth, j) {
    for (nth = 1; nth < equation_number[i]; nth++) {
        j = equation_at[word[i], nth]
        if (atoms_after(j) == atoms_after(i) && takes_all(j + 1, i + 1, atoms_after(i))) {
            at_place(i, "no arguments reach this equation: an earlier one takes them")
            return
        }
    }
}
# Whether the patterns from a on, so many, take all that those from b on take.
function takes_all(a, b, count) {
    for (; count > 0; count--) {
        if (is_name(a)) { a++; b = behind(b); continue }
        if (is_name(b)) return 0
        if (word[a] ~ /^-?[0-9]/ || word[b] ~ /^-?[0-9]/) { if (word[a] + 0 != word[b] + 0 || word[a] == "(" || word[b] == "(") return 0; a++; b++; continue }
        if (constructor_at(a) != constructor_at(b)) return 0
        if (word[a] == "(" && word[b] == "(" && !takes_all(a + 2, b + 2, atoms_after(a + 1))) return 0
        a = behind(a)
        b = behind(b)
    }
    return 1
}
function behind(i) { return (word[i] == "(" ? closing(i) : i) + 1 }
function constructor_at(i) { return word[i] == "(" ? word[i + 1] : word[i] }

function warnings(i) {
    for (i = 1; i <= words; i++) {
        if (starts[i] && is_name(i) && !(word[i] in parameters)) parameters[word[i]] = atoms_after(i)
        if (starts[i] && is_name(i)) { equation_number[i] = ++equations_of[word[i]]; equation_at[word[i], equation_number[i]] = i }
    }
    for (i = 1; i <= words; i++) {
        if (word[i] == "{") warn_of_default(i)
        if (word[i] ~ /^-[0-9]/) warn_of_minus(i)
        if (starts[i] && equation_number[i] > 1 && equation_number[i] <= 100) warn_of_equation(i)
    }
}

# In a module: the word that names it, or the first declaration of the sought word before the place.
function module_name(i) { return word[1] == "module" && word[2] == name_sought ? 2 : 0 }
function declared_before(limit, i) {
    for (i = 1; i <= words && (limit < 0 || at[i] < limit); i++)
        if (word[i] == name_sought && (starts[i] || starts[i - 1] && word[i - 1] == "data")) return i
    return 0
}
# What a module imports or declares, before its import at p.
function imported_or_declared(p, i) {
    for (i = 1; i < p; i++) if (word[i] == word[p] && in_import[i]) return i
    for (i = 1; i <= words; i++) if (word[i] == word[p] && (starts[i] || starts[i - 1] && word[i - 1] == "data")) return i
    return 0
}

{
    split($0, part, ":")
    text = substr($0, length(part[1]) + length(part[2]) + 3)
    if (text == "") { begins_text[part[2] + 0] = 1; next }
    if (text ~ /^--/) next
    word[++words] = text
    at[words] = part[2] + 0
    begins_line[words] = part[1] != last_line
    last_line = line_of[words] = part[1]
    if (at[words] == place) p = words
    # In a text that isn't well formed a name at a line's begin behind a `;` begins a declaration whatever is open.
    if (is_broken && at[words] in begins_text && word[words - 1] == ";") depth = 0
    if (!depth && (words == 1 || word[words - 1] == ";")) {
        starts[words] = 1
        is_type = types && text == "type"
        is_import = text == "import"
    }
    in_type[words] = is_type
    in_import[words] = is_import
    if (text == "(" || text == "{" || text == "let") depth++
    if (text == ")" || text == "}" || text == "in") depth--
}

END {
    if (rule == 2) { at_place(p = open_bracket(p ? p : words + 1), "the `" word[p] "` here is still open"); exit }
    if (rule == "warn") { warnings(); exit }
    if (rule == "file52") { if ((p = module_name()) != 0) print at[p]; exit }
    if (rule == "file58") { if ((p = declared_before(place)) != 0) print at[p]; exit }
    if (!p) exit
    if (rule == "missing") { if ((p = end_of_line_before(p)) != 0) print at[p] + length(word[p]); exit }
    if (rule == "sides") print role(p), word[p]
    if (rule == "rigid") rigid(p)
    if (rule == "rename") places_in_signature(p)
    if (rule == "blank") blank(p)
    if (rule == 11) first(first_constructor(p))
    if (rule == 12) first(first_function(p))
    if (rule == 13) first(first_in_list(p))
    if (rule == 15 || rule == 73) takes(p, declared_fields(p))
    if (rule == 16) at_place(next_alternative(p), "this alternative is never tried")
    if (rule == 17) first(first_alternative(p))
    if (rule == 18) at_place(case_of(p) + 1, "the first alternative has " (word[case_of(p) + 1] ~ /^[A-Z]/ ? "a constructor" : "an integer"))
    if (rule == 23) takes(p, 2)
    if (rule == 33 && starts[p]) at_most(p, names_after(p), "parameter")
    if (rule == 33 && !starts[p]) at_most(p, arguments(p), "argument")
    if (rule == 34) at_most(p, fields(p), "field")
    if (rule == 56) first(imported_or_declared(p))
    if (rule == 61) counts(p)
    if (rule == 71) equations(p, first_function(p))
    if (rule == 81 && word[p] != "Int") first(word[p - 1] == "type" ? first_behind(p) : first_in_list(p))
    if (rule == 84) missing(p)
    if (rule == 85) first(first_behind(p))
}
