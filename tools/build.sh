# Sourced by tools/archive and tools/program at the top of the repository: rt proves and builds a file only where something that it is made of has
# changed since.

mkdir -p target/staticlib target/bin
# One build at a time: a second one waits here, and then mostly finds the file made.
exec 9> target/lock
flock 9

# The digest of what rt builds from: the .rt and .antt files of crates/, without edits that must fail and what builds leave; the list of crates; and
# the toolchain's id, which is read from the file that `rt version` prints, as rt itself takes longer.
digest() (
    set -o pipefail
    rt=$(readlink -f "$(command -v rt)") || { echo "no rt on the PATH: it is the toolchain's command" >&2; exit 1; }
    {
        find crates \( -name must-fail -o -name out -o -name target \) -prune -o \
            -type f \( -name '*.rt' -o -name '*.antt' \) -print0 | LC_ALL=C sort -z | xargs -0 sha256sum crates.txt &&
            { cat "$(dirname "$rt")/../KIT-ID" 2> /dev/null || rt version; }
    } | sha256sum
)

# The file, made anew by the command if its digest isn't today's: the command proves, and leaves its result as MADE.
# The digest is taken before, so that a source changed meanwhile makes the file stale. It is written last and removed first, so that it never
# stands beside a file of other sources. The file gets its name when it is whole.
build() { # file, MADE, command
    local file=$1 made=$2 now
    shift 2
    now=$(digest)
    if [ -f "$file" ] && [ "$(cat "$file.digest" 2> /dev/null)" = "$now" ]; then
        return
    fi
    echo "proving and building $file: the first time takes some minutes" >&2
    "$@" 9>&- # what rt leaves running mustn't hold the lock
    rm -f "$file.digest"
    cp "$made" "$file.new"
    mv "$file.new" "$file"
    echo "$now" > "$file.digest"
}
