# Turns the lines of `export` into a graph in the language DOT, one object a node and one reference an edge:
#
#   (grep '^type ' my.script; printf 'export\n' | ./voldaguz run FOLDER 1) | awk -f examples/graph.awk | dot -Tsvg > graph.svg
#
# The root is a box, each type has a colour of its own, and an edge bears the name of its member; that of a lazy reference is dashed. References
# to nothing are left out. The `type` lines say which members are references. Of a type without one every number that is an object's id counts.
BEGIN {
    count = split("lightblue palegreen khaki lightpink lavender wheat paleturquoise thistle lightsalmon honeydew", colours, " ")
    kind["Root", "target"] = "ref"
    known["Root"] = 1
    print "digraph store {"
    print "  node [style=filled, fontname=sans]"
}

$1 == "type" {
    known[$2] = 1
    for (i = 3; i <= NF; i++) {
        split($i, part, ":")
        kind[$2, part[2]] = part[1]
    }
}

# An object ends with its type: `"type":"NAME"}`. Texts may hold anything, so it is looked for from the right.
/^\{"id":[0-9]+,"m":\{/ {
    match($0, /"type":"[A-Za-z0-9_]+"\}$/)
    type = substr($0, RSTART + 8, RLENGTH - 10)
    members = substr($0, 7, RSTART - 8)
    id = members + 0
    sub(/^[0-9]+,"m":\{/, "", members)
    sub(/\}$/, "", members)
    if (!(type in colour)) colour[type] = type == "Root" ? "white" : colours[types++ % count + 1]
    is_node[id] = 1
    printf "  %s [label=\"%s %s\", fillcolor=%s%s]\n", id, type, id, colour[type], type == "Root" ? ", shape=box" : ""
    read_members(id, type, members)
}

END {
    for (i = 1; i <= edges; i++) if (to[i] in is_node) printf "  %s -> %s [label=\"%s\"%s]\n", from[i], to[i], name[i], style[i]
    print "}"
}

# Goes over `"name":value,..` and keeps each reference as an edge.
function read_members(id, type, text,   member, is_ref, ids, n, i) {
    while (match(text, /^"[a-z0-9_]+":/)) {
        member = substr(text, 2, RLENGTH - 3)
        text = substr(text, RLENGTH + 1)
        is_ref = !(type in known) || kind[type, member] ~ /^(ref|lazy|refs)$/
        if (match(text, /^"([^"\\]|\\.)*"/)) is_ref = 0
        else match(text, /^(\[[0-9,]*\]|-?[0-9]+)/)
        n = is_ref ? split(substr(text, 1, RLENGTH), ids, /[^0-9]+/) : 0
        for (i = 1; i <= n; i++) if (ids[i] + 0) {
            from[++edges] = id
            to[edges] = ids[i]
            name[edges] = member
            style[edges] = kind[type, member] == "lazy" ? ", style=dashed" : ""
        }
        text = substr(text, RLENGTH + 2)
    }
}
