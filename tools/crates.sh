# What the scripts beside this one ask of crates.txt. They source it in the repository's root.

# entries [FILE]: the lines for crates, 'NAME KIND: DEP DEP', without the comments and the empty lines.
entries() {
    sed -e 's/#.*//' "${1:-crates.txt}" | awk 'NF { $1 = $1; print }'
}

# listed: a line 'NAME DEP DEP' for each crate.
listed() {
    entries | sed -e 's/^\([^ :]*\)[^:]*:*/\1 /' | awk '{ $1 = $1; print }'
}

# The names alone.
crate_names() {
    listed | awk '{ print $1 }'
}

# has_files NAME: whether the crate's folder has anything but what rt made there.
has_files() {
    [ -n "$(ls -A "crates/$1" 2>/dev/null | grep -vx out)" ]
}

# closure NAME...: reads lines 'NAME NEXT NEXT' and prints the names given and every name that they lead to, each once.
closure() {
    START="$*" awk '
        function visit(name, names, count, i) {
            if (name in seen) return
            seen[name] = 1
            print name
            count = split(nexts[name], names, " ")
            for (i = 1; i <= count; i++) visit(names[i])
        }
        { for (i = 2; i <= NF; i++) nexts[$1] = nexts[$1] " " $i }
        END { count = split(ENVIRON["START"], start, " "); for (i = 1; i <= count; i++) visit(start[i]) }
    '
}

# below NAME...: these crates and all that they depend on, the toolchain's own libraries among them.
below() {
    listed | closure "$@"
}

# above NAME...: these crates and all that depend on them.
above() {
    listed | awk '{ for (i = 2; i <= NF; i++) print $i, $1 }' | closure "$@"
}
