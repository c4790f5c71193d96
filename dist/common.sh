# What dist/program, dist/library, dist/release, .ci/library and .ci/run share: what was made of what. Whoever reads this in has set `top`, the
# repository's folder.

# The folders of sources of a crate of this repository and of those below it: src, specs and proofs. Whoever calls it is in `top`.
source_folders() {
    local name part
    for name in $(stack "$1"); do
        for part in src specs proofs; do
            if [ -d "crates/$name/$part" ]; then echo "crates/$name/$part"; fi
        done
    done
}

# The lines of crates.txt of a crate and of those below it.
crate_lines() {
    stack "$1" | sed 's/.*/^&[ :]/' | grep -f - "$top/crates.txt"
}

# The awk program that prints the lines of files without those that are blank or a comment alone, each file after its path. A comment beside code
# stays. Once a string or a comment may go on to the next line, all further lines of the file stay, and so do all of a file of another kind.
CODE_LINES='
    FNR == 1 { print "file " FILENAME; is_whole = FILENAME !~ /[.](rt|antt)$/; is_rust = FILENAME ~ /[.]rt$/ }
    is_whole { print; next }
    /^[ \t]*$/ { next }
    is_rust ? /^[ \t]*[\/][\/]/ : /^[ \t]*--/ { next }
    { print }
    /["*{]/ {
        gsub(/[\\]./, "")
        gsub(/\047"\047/, "")
        opens = is_rust ? "[/][*]|(^|[^A-Za-z0-9_])[bc]?r#*\"" : "[{]-"
        is_whole = $0 ~ opens || gsub(/"/, "") % 2
    }'

# A hash of what a crate is proved and built of (the program: pbtool; the library: pb_c): its lines of crates.txt, HANDLES, and the CODE_LINES of each
# file in src, specs and proofs of its crates, in the order of the paths' bytes. So it is the same in each clone, whatever the locale, the modes and
# the times, and neither another crate nor a comment changes it.
sources_hash() {
    (
        cd "$top"
        export LC_ALL=C
        { crate_lines "$1" | sort; find HANDLES $(source_folders "$1") -type f -print0 | sort -z | xargs -0 awk "$CODE_LINES"; } | sha256sum | cut -d' ' -f1
    )
}

# What is recorded in a file, by its first word: recorded sources|program|library|archive|shared|header|objcopy|machine|kit FILE.
recorded() {
    sed -n "s/^$1 //p" "$2" 2>/dev/null
}

sum_of() {
    sha256sum <"$1" | cut -d' ' -f1
}

# What is recorded of a program that was made here: the hashes of its sources and of the program, the machine and the kit.
record() {
    echo "sources $(sources_hash pbtool)"
    echo "program $(sum_of "$1")"
    echo "machine $(uname -sm)"
    echo "kit $(rt version)"
}

# The same of a library in a folder, with its header and with the one tool that neither the kit nor this repository has.
record_library() {
    echo "library $(sources_hash pb_c)"
    echo "archive $(sum_of "$1/libmabristu.a")"
    echo "shared $(sum_of "$1/libmabristu.so")"
    echo "header $(sum_of "$top/include/mabristu.h")"
    echo "objcopy $(objcopy --version | head -n 1)"
    echo "machine $(uname -sm)"
    echo "kit $(rt version)"
}

# Whether the released program, or one that was built here, is of these sources.
has_program() {
    local of
    of=$(sources_hash pbtool)
    [ "$(recorded sources "$top/dist/sources")" = "$of" ] ||
        { [ -x "$top/crates/pbtool/out/pbtool" ] && [ "$(recorded sources "$top/crates/pbtool/out/made_of")" = "$of" ]; }
}

# Whether a folder has a library that the record says was made of these sources, with this header.
is_of_these() {
    [ -f "$1/libmabristu.so" ] && [ "$(recorded library "$2")" = "$(sources_hash pb_c)" ] && [ "$(recorded header "$2")" = "$(sum_of "$top/include/mabristu.h")" ]
}

# The crates of this repository below a crate, lowest first, and the crate itself.
stack() {
    awk -v of="$1" '
        function visit(name, count, its, at) {
            if (name in seen) return
            seen[name]
            count = split(below[name], its, " ")
            for (at = 1; at <= count; at++) if (its[at] in below) visit(its[at])
            print name
        }
        { sub(/#.*/, "") }
        /:/ { split($0, sides, ":"); split(sides[1], head, " "); below[head[1]] = sides[2] }
        END { visit(of) }' "$top/crates.txt"
}

# Whether what .ci/library takes beside the kit is there.
has_binutils() {
    command -v objcopy >/dev/null && command -v nm >/dev/null
}

# The number of the library's interface, which is that of its shared object's name for the loader.
interface() {
    sed -n 's/^#define MB_INTERFACE //p' "$top/include/mabristu.h"
}

# The version of the program and of the packages.
version() {
    sed -n 's/^\(pub(crate) \)*const VERSION: &str = "\(.*\)";$/\2/p' "$top/crates/pbtool_cli/src/words.rt"
}
