# Statements and fields, from the files of specs/ and src/: see tools/statements. Each file is handed over twice: first for what
# it declares, then for what uses that.

FNR == 1 {
    second = FILENAME in met
    met[FILENAME] = 1
    split(FILENAME, part, "/")
    crate = part[2]
    code = part[3] == "src"
}

code { sub(/\/\/.*/, "") }
!code { sub(/--.*/, "") }

# An import: where each name comes from, by its name in this file. Code uses what it imports.
/^ *(ghost +)?use / {
    if (!match($0, /Rattle\.[a-z]+/)) next
    home = substr($0, RSTART, RLENGTH)
    sub(/^Rattle\./, "", home)
    list = $0
    if (!sub(/.*[{]/, "", list) || !sub(/[}].*/, "", list)) next
    n = split(list, names, ",")
    for (i = 1; i <= n; i++) {
        split(names[i], word, " ")
        from[FILENAME, word[2] == "as" ? word[3] : word[1]] = home ":" word[1]
        if (code) used[home ":" word[1]] = 1
    }
    next
}

code { next }

function origin(name) { return (FILENAME, name) in from ? from[FILENAME, name] : crate ":" name }

# A field of the page: a statement, for all values of what stands before it in brackets, and nothing else.
crate == "claims" {
    if (!second || $0 !~ /^  pub +[^ ]+ +:/) next
    field = $2
    sub(/^  pub +[^ ]+ +: */, "")
    while (sub(/^([(][^()]*[)]|[{][^{}]*[}]) *(→ *)?/, "")) continue
    name = $1
    if (name ~ /^[A-Z]/ && $0 !~ /→/ && (FILENAME, name) in from) claimed[origin(name)] = claimed[origin(name)] " " field
    next
}

# A public name of sort Type: without parameters, or with some; data, or not.
{ declared = "" }
/^ *((abbrev|unfoldable) +pub|pub +(record|data)) +[A-Z][A-Za-z0-9]*/ {
    declared = $3
    if (!second) {
        order[++many] = name = crate ":" declared
        bare[name] = $0 ~ /^[a-z]+ +[a-z]+ +[A-Za-z0-9]+ *: *Type [0-9]+( where)? *$/
        data[name] = $2 == "data"
    }
}

# What a line uses: not the name that it declares, nor the one whose equation it begins.
second {
    signature = $0 ~ /^ *(abbrev|unfoldable) /
    equation = $0 ~ /^(  )?[A-Z]/
    line = $0
    gsub(/[^A-Za-z0-9_'-]+/, " ", line)
    n = split(line, words, " ")
    for (i = 1; i <= n; i++) {
        if (words[i] !~ /^[A-Z]/ || words[i] == declared || equation && i == 1) continue
        used[origin(words[i])] = 1
        if (signature) data[origin(words[i])] = 1
    }
}

END {
    for (i = 1; i <= many; i++) {
        name = order[i]
        if (name in claimed) print name claimed[name]
        else if (bare[name] ? !data[name] : !used[name]) print name " -"
    }
}
