# What tools/run_program, tools/library, tools/pack and tools/wheel share, read by `.` with $top set, the top of the
# repository, and then made to speak of one program, or of the library libescrow_c.so, by `speak_of NAME`. It needs what
# POSIX has, and sha256sum and gzip for what is packed.

speak_of() {
    name=$1
    crate=$name
    [ "$name" != libescrow_c.so ] || crate=escrow_c
    built=$top/crates/$crate/out/$name
    packed=$top/packed/$name.gz
    sums=$top/packed/$name.sums
    unpacked=$top/packed/out/$name
}

# Whether this stream goes to a file of a site, $file, as by `2>> shop0/log`: a line of ours would stand among its records.
goes_home() {
    file=$(readlink "/proc/$$/fd/$1" 2>/dev/null) || return 1
    case $file in
    /*/site | /*/log | /*/trace | /*/not_before) grep -q '^escrow site ' "${file%/*}/site" 2>/dev/null ;;
    *) return 1 ;;
    esac
}

say() {
    goes_home 2 || echo "$name: $*" >&2
}

sum_of() {
    sha256sum | cut -d ' ' -f 1
}

# The lines of crates.txt that it is made of: its crate's own, and those of the crates that this one stands on.
crate_lines() {
    awk -v name="$crate" -F'[: ]+' '/:/ && !/^#/ { lines[++n] = $0; ours[$1] }
        BEGIN { needed[name] }
        END {
            for (i = n; i > 0; i--) {
                count = split(lines[i], words)
                if (!(words[1] in needed)) continue
                print lines[i]
                for (j = 2; j <= count; j++) if (words[j] in ours) needed[words[j]]
            }
        }' "$top/crates.txt"
}

# The folders of that name of each of these crates, as src.
folders() {
    crate_lines | sed "s|[: ].*|/$1|; s|^|crates/|"
}

# The sum of all that its bytes come of: those lines, and each file of the crates' src. specs and proofs leave
# no trace in a program, so an edit of them alone changes no sum.
sources_sum() (
    cd "$top"
    { crate_lines && find $(folders src) -type f -exec sha256sum {} + | LC_ALL=C sort; } | sum_of
)

# The first file, if any, that is newer than what was built here: of its sources, specs and proofs.
newer_file() (
    cd "$top"
    find crates.txt $(folders src; folders specs; folders proofs) -newer "$built" 2>/dev/null | head -n 1
)

is_built() {
    [ -x "$built" ] && [ -z "$(newer_file)" ]
}

# What is told of what is packed: its machine, kit, sources or program. Nothing, where none is packed.
told() {
    [ ! -r "$sums" ] || sed -n "s/^$1 //p" "$sums"
}

# Whether what is packed is of these sources and for such a machine. Else $why says why not.
is_packed() {
    if [ ! -r "$sums" ] || [ ! -r "$packed" ]; then
        why="packed/$name.gz and packed/$name.sums are not here"
    elif [ "$(told machine)" != "$(uname -sm)" ]; then
        why="it is for $(told machine), and this machine is $(uname -sm)"
    elif [ "$(told sources)" != "$(sources_sum)" ]; then
        why='it was built of other sources than these: `git status` tells edits of yours; where there are none'
        why="$why the sources went on since it was packed, and \`git log -1 packed\` names a commit that has both"
    else
        return 0
    fi
    return 1
}

is_unpacked() {
    [ -x "$unpacked" ] && [ "$(sum_of <"$unpacked")" = "$(told program)" ]
}

no_place() {
    why="it can't be unpacked to $top/packed/out by $(id -un 2>/dev/null)"
    remedy="make room there, or let the owner of that folder type \`$unpacks\` once, which unpacks it for all"
}

# Unpacks it to a file of its own first, since another call may do the same now. Whoever owns the folder may unpack for
# others, whatever its umask is. `serves FILE` tells whether it can be used, and `tell_unpacked` that it is.
unpack() {
    fresh=
    if [ "$(sum_of <"$packed")" != "$(told packed)" ]; then
        why="packed/$name.gz hasn't the sum that packed/$name.sums tells (\`git checkout packed\` puts both back)"
    elif ! mkdir -p -m 755 "$top/packed/out" || ! fresh=$(mktemp "$top/packed/out/new.XXXXXX") ||
        ! gzip -dc "$packed" >"$fresh"; then
        no_place
    elif [ "$(sum_of <"$fresh")" != "$(told program)" ]; then
        why="packed/$name.gz isn't the one that packed/$name.sums tells (\`git checkout packed\` puts both back)"
    elif ! chmod 755 "$fresh" || ! serves "$fresh"; then
        why="it doesn't run in $top/packed/out: it needs glibc 2.34 or later, a processor of x86-64-v2, and no noexec there"
    elif ! mv -f "$fresh" "$unpacked"; then
        no_place
    else
        tell_unpacked
        return 0
    fi
    [ -z "$fresh" ] || rm -f "$fresh"
    return 1
}

# Whether what is packed can be used. Else $why says why not.
has_packed() {
    is_packed && { is_unpacked || unpack; }
}
