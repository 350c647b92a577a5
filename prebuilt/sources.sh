# shellcheck shell=sh disable=SC2154
# Read by the launcher, by ./install and by bench/tools/program.sh and prebuilt.sh, which set `top` to the top of the repository.

# The crates of crates.txt that these stand on, lowest first, and these themselves.
crates_below() {
    awk -v of="$*" '!/^#/ && NF { name = $1; sub(/:$/, "", name); names[++n] = name; for (i = 2; i <= NF; i++) uses[name, $i] = 1 }
        END { split(of, given, " "); for (i in given) wanted[given[i]] = 1
            for (i = n; i >= 1; i--) for (j = n; j >= 1; j--) if (wanted[names[j]]) for (k = 1; k <= n; k++)
                if ((names[j], names[k]) in uses) wanted[names[k]] = 1
            for (i = 1; i <= n; i++) if (wanted[names[i]]) print names[i] }' "$top/crates.txt"
}

# The crates that the program stands on, and the program.
crates_of_the_program() {
    crates_below pqds
}

# The digest of what the program is made of: the lines of crates.txt and the sums of the files of each of its crates.
digest_of_sources() {
    (
        cd -- "$top" || exit 1
        for name in $(crates_of_the_program); do
            grep "^${name}[ :]" crates.txt
            for part in src specs proofs; do
                [ ! -d "crates/$name/$part" ] || find "crates/$name/$part" -type f
            done | LC_ALL=C sort | tr '\n' '\0' | xargs -0 sha256sum
        done
    ) | sha256sum | cut -d ' ' -f 1
}

# What prebuilt/SOURCES says of a word: sources, program or kit.
said_of() {
    sed -n "s/^$1 //p" "$top/prebuilt/SOURCES" 2>/dev/null
}

# A source of the program that is newer than this file, if there is one.
newer_source() {
    (
        cd -- "$top" || exit 1
        # shellcheck disable=SC2046
        find crates.txt $(crates_of_the_program | sed 's|^|crates/|') -name out -prune -o -newer "$1" \
            -type f \( -name '*.rt' -o -name '*.antt' -o -name crates.txt \) -print
    ) | head -n 1
}

# Where the program of prebuilt/ is unpacked: next to it or, if that folder cannot be written, in a temporary folder of this user.
place_of_unpacked() {
    if [ -w "$top/prebuilt" ] || [ -x "$top/prebuilt/.pqds" ]; then
        printf '%s\n' "$top/prebuilt/.pqds"
        return
    fi
    place=${TMPDIR:-/tmp}/pqds-$(id -u)
    mkdir -m 700 -- "$place" 2>/dev/null
    [ -d "$place" ] && [ -O "$place" ] && [ ! -L "$place" ] && printf '%s/%s\n' "$place" "$(said_of program)"
}

# Unpacks the program of prebuilt/ to a file, if it is the one that prebuilt/SOURCES names.
unpack_to() {
    gzip -dc "$top/prebuilt/pqds.gz" 2>/dev/null >"$1" || return 1
    sum=$(sha256sum <"$1") || return 1
    [ "${sum%% *}" = "$(said_of program)" ] && chmod +x "$1"
}

# Unpacks the program of prebuilt/ to a file, which has its name only once it is whole, if it was made from these sources.
unpack_fresh_to() {
    [ -n "$1" ] && [ -f "$top/prebuilt/pqds.gz" ] && [ "$(said_of sources)" = "$(digest_of_sources)" ] || return 1
    unpack_to "$1.$$" && mv -f -- "$1.$$" "$1" && return
    rm -f -- "$1.$$"
    return 1
}
