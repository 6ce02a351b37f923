# What the scripts that build share. Set `top` to the top of the clone, and `script` to the name that messages begin
# with; then run `. "$top/tools/build.sh"`. It has two functions to call, which prove and build what is not built:
#
#   find_program CRATE [WORD..]    `program` is the path of the crate's program; `rt run WORD..` builds it
#   find_libraries                 `libraries` is the folder that has libipnet.a and libipnet.so
#
# They build in the clone. If it is read-only, they build in a copy of it below ~/.cache/dewikonu. They print a line for
# each crate to standard error. `expect_all` has these lines count the crates of both programs and of the libraries. The
# first message says that the build can take `takes`; set `quicker` to a sentence that follows it.
takes='half an hour'
quicker=
crates_counted=0
crates_expected=0
crates_proved=

# version: prints the version, the first that CHANGELOG.md names
version() {
    sed -n 's/^## \([0-9][0-9.]*\).*/\1/p' "$top/CHANGELOG.md" | head -n 1
}

# release_name: prints the version as the program netset prints it, such as 1.0.0-preview
release_name() {
    sed -n 's/^pub const VERSION: &str = "\(.*\) (not-released)";$/\1/p' "$top/crates/netset/src/version.rt"
}

# clone_commit: prints the first twelve characters of the clone's commit, and whether its files have changes. It prints
# nothing if git does not know.
clone_commit() {
    local below commit changed
    below=$(git -C "$top" rev-parse --show-prefix 2>/dev/null) && [ -z "$below" ] || return
    commit=$(git -C "$top" rev-parse HEAD 2>/dev/null) || return
    changed=$(git -C "$top" status --porcelain --untracked-files=no 2>/dev/null)
    printf %s "${commit:0:12}${changed:+, with changes}"
}

# complain TEXT: prints the text to standard error, after the name of the script
complain() {
    printf '%s: %s\n' "$script" "$1" >&2
}

# crates_below NAME..: prints the crates and the repository's crates that they use, one per line, the lowest first
crates_below() {
    awk -v wanted="$*" '
        /^[^#]/ { split($0, half, ":"); split(half[1], words, " "); uses[words[1]] = half[2] }
        function visit(text, list, count, i) {
            count = split(text, list, " ")
            for (i = 1; i <= count; i++) {
                if (!(list[i] in uses) || list[i] in seen) continue
                seen[list[i]]
                visit(uses[list[i]])
                print list[i]
            }
        }
        END { visit(wanted) }' "$top/crates.txt"
}

# sources_below NAME: adds to `sources` the files and folders that the crate is built from, relative to `work`
sources_below() {
    local name part
    sources+=(crates.txt)
    while read -r name; do
        for part in src specs proofs; do
            [ ! -d "$top/crates/$name/$part" ] || sources+=("crates/$name/$part")
        done
    done < <(crates_below "$1")
}

# dates: a sum of the names, sizes and dates of the sources and of the products
dates() {
    (cd "$work" && find "${sources[@]}" "${products[@]}" -type f -printf '%p %s %T@\n' | LC_ALL=C sort | sha256sum)
}

# contents: a sum of the names and contents of the sources and of the products
contents() {
    (cd "$work" && find "${sources[@]}" "${products[@]}" -type f -print0 | LC_ALL=C sort -z | xargs -0 sha256sum |
        sha256sum)
}

# number_at FILE OFFSET SIZE: the number in so many bytes of the file
number_at() {
    od -An "-tu$3" "-j$2" "-N$3" "$1" 2>/dev/null | tr -d ' '
}

# is_whole FILE: whether the file is a program whose last part, the table of sections, was written
is_whole() {
    [ -x "$1" ] && [ "$(head -c 4 "$1" | tr -d '\177')" = ELF ] || return 1
    local table each count size
    table=$(number_at "$1" 40 8) each=$(number_at "$1" 58 2) count=$(number_at "$1" 60 2) size=$(stat -c %s "$1")
    [ -n "$table" ] && [ -n "$count" ] && [ "$count" -gt 0 ] && [ "$size" -ge $((table + each * count)) ]
}

# is_newest: whether no source is newer than the first product
is_newest() {
    (cd "$work" && [ -z "$(find "${sources[@]}" -newer "${products[0]}" -print -quit)" ])
}

# is_built: whether the products were built from these sources, and are as they were then. FIRST_PRODUCT.built has the
# two sums of that time; the first decides most calls. A program without that file comes from rt: it must be newest.
is_built() {
    local kept=$work/$products.built product first second
    for product in "${products[@]}"; do
        [ -s "$work/$product" ] || return 1
    done
    if [ -s "$kept" ]; then
        { read -r first && read -r second; } <"$kept" || return 1
        [ "$(dates)" != "$first" ] || return 0
        [ "$(contents)" = "$second" ] || return 1
    else
        is_whole "$work/$products" && is_newest || return 1
    fi
    keep_sums
    return 0
}

# keep_sums: notes that the products were built from the sources. Without the note, nothing is wrong, but slower.
keep_sums() {
    local kept=$work/$products.built
    { { dates && contents; } >"$kept.new.$$" && mv -f "$kept.new.$$" "$kept"; } 2>/dev/null || rm -f "$kept.new.$$"
}

# is_current_copy: whether the copy in `work` has the sources of the clone
is_current_copy() {
    local part
    for part in "${sources[@]}"; do
        diff -rq "$top/$part" "$work/$part" >/dev/null 2>&1 || return 1
    done
}

# copy_sources: copies the sources of all crates of a clone that is read-only to `work`, since rt wants the folder of
# each crate in crates.txt. It keeps what was proved there.
copy_sources() {
    local part
    for part in crates.txt bindings/link $(cd "$top" && ls -d crates/*/{src,specs,proofs} 2>/dev/null); do
        rm -rf "${work:?}/$part" && mkdir -p "$work/$(dirname "$part")" && cp -a "$top/$part" "$work/$part" &&
            chmod -R u+w "$work/$part" || return 1
    done
}

# find_built: sets `work` to the folder for the products: the clone, or its copy if it cannot be written. The status is
# 0 if they are built there, 1 if they are not, and 2 if there is no such folder.
find_built() {
    local folder
    folder=$(dirname "$products")
    work=$top
    ! is_built || return 0
    ! mkdir -p "$work/$folder" 2>/dev/null || [ ! -w "$work/$folder" ] || return 1
    [ -n "${XDG_CACHE_HOME-}${HOME-}" ] || return 2
    work=${XDG_CACHE_HOME:-$HOME/.cache}/dewikonu/$(printf %s "$top" | sha256sum | head -c 16)
    mkdir -p "$work/$folder" || return 2
    is_current_copy && is_built
}

# find_products CRATE COMMAND..: makes sure that `products`, paths from the top of the clone, are built from `sources`,
# and sets `work` to the folder that has them, at the same paths. If they are not built, the command builds them, in the
# crate's folder in `work`.
find_products() {
    local lock file status
    find_built
    case $? in
        0) return 0 ;;
        2)
            complain "$top cannot be written, and there is no folder ~/.cache"
            return 1
            ;;
    esac
    file=.lock
    [ "$work" != "$top" ] || file=$(dirname "$products")/.lock
    exec {lock}>"$work/$file" || return 1
    if ! flock -n "$lock"; then
        complain "waiting for another build"
        flock "$lock" || return 1
    fi
    build_products "$@"
    status=$?
    exec {lock}>&-
    return $status
}

# run_in NAME COMMAND..: runs the command in the crate's folder in `work`. What it prints is shown only if it fails.
run_in() {
    local name=$1 words
    shift
    if ! words=$(cd "$work/crates/$name" && "$@" 2>&1 </dev/null); then
        printf '%s\n' "$words" >&2
        complain "$name could not be built"
        return 1
    fi
}

# count_crate NAME WORDS START: prints the line of a crate; START is the value of SECONDS when its command began
count_crate() {
    crates_proved+=" $1 "
    crates_counted=$((crates_counted + 1))
    printf '%d of %d: %s, %s in %d s\n' $crates_counted "$crates_expected" "$1" "$2" $((SECONDS - $3)) >&2
}

# prove_below CRATE: proves the libraries below the crate that this script has not proved yet, the lowest first. rt
# knows which are up to date, and takes as many processors for a crate as the memory allows. While it works on a crate,
# it lets no other rt work on the crates below, so two at once would wait for each other.
prove_below() {
    local name start
    while read -r name; do
        if [ "$name" != "$1" ] && [[ $crates_proved != *" $name "* ]]; then
            start=$SECONDS
            run_in "$name" rt lib || return 1
            count_crate "$name" proved $start
        fi
    done < <(crates_below "$1")
}

# is_written: whether each product is there, and whole if it is a program
is_written() {
    local product
    for product in "${products[@]}"; do
        if [ ! -s "$work/$product" ] || { [ -x "$work/$product" ] && ! is_whole "$work/$product"; }; then
            complain "$product was not written to its end: is the disk full?"
            return 1
        fi
    done
}

# build_products CRATE COMMAND..: builds the products, if no other call has done so by now
build_products() {
    local crate=$1 start
    shift
    [ "$work" = "$top" ] || is_current_copy || copy_sources || return 1
    ! is_built || return 0
    if ! command -v rt >/dev/null; then
        complain "needs the Rattle kit (command rt)${quicker:+. $quicker}"
        return 1
    fi
    [ -n "$crates_proved" ] || complain "proving and building $crate first; this can take $takes${quicker:+. $quicker}"
    [ $crates_expected -gt 0 ] || crates_expected=$(crates_below "$crate" | wc -l)
    rm -f "$work/$products.built"
    prove_below "$crate" || return 1
    start=$SECONDS
    run_in "$crate" "$@" && is_written || return 1
    count_crate "$crate" 'proved and built' $start
    keep_sums
}

# name_program CRATE: sets `sources` and `products` for the program of the crate
name_program() {
    sources=()
    products=("crates/$1/out/$1")
    sources_below "$1"
}

# name_libraries: sets `sources` and `products` for the libraries
name_libraries() {
    sources=(bindings/link)
    products=(bindings/out/libipnet.a bindings/out/libipnet.so)
    sources_below ipnet_c
}

# expect_all: has the lines of progress count all crates below the programs and the libraries that are not built
expect_all() {
    local crate missing=()
    for crate in ipnet_program netset; do
        name_program $crate
        find_built || missing+=("$crate")
    done
    name_libraries
    find_built || missing+=(ipnet_c)
    [ ${#missing[@]} = 0 ] || crates_expected=$(crates_below "${missing[@]}" | wc -l)
}

find_program() {
    local crate=$1
    shift
    name_program "$crate"
    find_products "$crate" rt run "$@" && program=$work/$products
}

find_libraries() {
    local tool
    for tool in cc ar; do
        if ! command -v "$tool" >/dev/null; then
            complain "needs $tool"
            return 1
        fi
    done
    name_libraries
    find_products ipnet_c ../../bindings/link && libraries=$work/bindings/out
}
