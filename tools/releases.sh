# What the scripts share that make, compare and install a release; it needs tools/build.sh, functions `fail` and `step`,
# and an empty folder `room`. The clone has one release, in a folder below releases/:
#
#   dewikonu-RELEASE-linux-x86_64.tar.gz             programs, pages, completions, header, libraries, Python package,
#                                                    Rust crate
#   ipnet_proved-VERSION-TAG-linux_x86_64.whl        the Python package, for pip
#   postgresql-15-ipset_VERSION_amd64.deb            the extension for PostgreSQL 15, as a Debian package
#   ipset-sqlite-RELEASE-linux-x86_64.tar.gz         the extension for SQLite
#   ipnet.symbols                                    the functions of the library, for a Debian package
#   MADE-OF                                          the name of the release, its commit, the kit and the tools that
#                                                    made it, and the version of glibc that its programs need
#   SHA256SUMS                                       the sums of these files
#
# `folder` is the folder of the release that a script works with.

# release_sources: prints the paths that these files are made of, one per line. Only this list decides whether a release
# is up to date.
release_sources() {
    local name
    printf '%s\n' crates.txt include licences docs/{ipnet.1,netset.1,internals/LICENCES.md} LICENSE-{MIT,APACHE} \
        install release tools/{build,package,places,releases}.sh tools/completions \
        bindings/{build,link,ipnet.pc.in,ipnet.symbols} bindings/{sql,sqlite,postgresql} \
        bindings/python/{_quick.c,pyproject.toml,backend,ipnet_proved} bindings/rust/{Cargo.toml,build.rs,src}
    while read -r name; do
        printf 'crates/%s\n' "$name"/{src,specs,proofs}
    done < <(crates_below ipnet_program netset ipnet_c)
}

# have_sources_changed COMMIT: whether a file that a release is made of differs from the file in the commit
have_sources_changed() {
    local paths
    mapfile -t paths < <(release_sources)
    ! git -C "$top" diff --quiet "$1" -- "${paths[@]}" ||
        [ -n "$(git -C "$top" ls-files --others --exclude-standard -- "${paths[@]}")" ]
}

# commits_since COMMIT: prints how many commits the clone has after this one; the status is not 0 if git does not know
commits_since() {
    git -C "$top" merge-base --is-ancestor "$1" HEAD 2>/dev/null &&
        git -C "$top" rev-list --count "$1..HEAD" 2>/dev/null
}

# counted COUNT NOUN: prints the count and the noun, with an s if it needs one
counted() {
    printf '%d %s' "$1" "$2"
    [ "$1" = 1 ] || printf s
}

# find_release: sets `folder` to the folder of the clone's release
find_release() {
    local found=("$top"/releases/*/MADE-OF)
    [ ${#found[@]} = 1 ] && [ -f "${found[0]}" ] || fail "there is no release in $top/releases; --prove needs none"
    folder=${found[0]%/MADE-OF}
}

# made_of KEY: prints a value in the file MADE-OF
made_of() {
    sed -n "s/^$1: //p" "$folder/MADE-OF"
}

# made_with: prints what decides the bytes of a release beside its sources, as lines of MADE-OF. The kit makes the
# programs and the static library; the compiler and Python.h make the other libraries.
made_with() {
    printf 'kit: %s\n' "$(rt version)"
    printf 'compiler: %s\n' "$(cc --version | head -n 1)"
    printf 'python: %s\n' "$(python3 -c 'import os, sys, sysconfig
header = os.path.join(sysconfig.get_path("include"), "Python.h")
print("%d.%d%s" % (*sys.version_info[:2], "" if os.path.exists(header) else " without Python.h"))')"
}

# other_tools: prints which of them are not those of the release, as `kit, compiler`
other_tools() {
    made_with | grep -vxFf "$folder/MADE-OF" | sed 's/:.*//' | paste -sd , | sed 's/,/, /g'
}

# write_sums FOLDER: writes the sums of the files in the folder
write_sums() {
    (export LC_ALL=C && cd "$1" && rm -f SHA256SUMS && sha256sum -- * >"$room/sums") && mv "$room/sums" "$1/SHA256SUMS"
}

# check_sums: ends the script unless all files of the release have their sums
check_sums() {
    local wanted name found
    for name in MADE-OF "$(archive_name)"; do
        grep -qF "  $name" "$folder/SHA256SUMS" || fail "$folder/SHA256SUMS does not name $name"
    done
    while read -r wanted name; do
        [ -f "$folder/$name" ] || fail "$folder/$name is missing"
        found=$(sha256sum <"$folder/$name")
        [ "${found%% *}" = "$wanted" ] || fail "$folder/$name does not have the bytes that SHA256SUMS says"
    done <"$folder/SHA256SUMS"
}

# archive_name: prints the name of the archive with the programs
archive_name() {
    printf 'dewikonu-%s-linux-x86_64.tar.gz' "$(made_of release)"
}

# check_machine: ends the script unless the programs of the release run here
check_machine() {
    local machine needed libc
    machine=$(uname -sm)
    [ "$machine" = 'Linux x86_64' ] || fail "the release is for x86-64 Linux, and this is $machine"
    needed=$(made_of glibc)
    libc=$(getconf GNU_LIBC_VERSION 2>/dev/null)
    [[ $libc == glibc\ [0-9]* ]] || fail "the release needs glibc $needed, and this system has another C library"
    [ "$(printf '%s\n' "$needed" "${libc#glibc }" | sort -V | head -n 1)" = "$needed" ] ||
        fail "the release needs glibc $needed or newer, and this system has $libc"
}

# fill_commit FILE COMMIT: writes the first twelve characters of the commit into the linked program, in the one place
# for them
fill_commit() {
    local places
    places=$(LC_ALL=C grep -abo not-released "$1") && [ "$(wc -l <<<"$places")" = 1 ] && [ ${#2} -ge 12 ] || return 1
    printf %s "${2:0:12}" | dd "of=$1" bs=1 "seek=${places%%:*}" conv=notrunc status=none
}

# release_clone FOLDER COMMIT: clones the commit into the folder, and makes its release there from nothing, in
# FOLDER.files
release_clone() {
    step "commit ${2:0:12} is proved and built in a clone"
    git clone -q --no-checkout "$top" "$1" && git -C "$1" checkout -q --detach "$2" && mkdir "$1.files" &&
        (cd "$1.files" && "$1/release" >/dev/null)
}

# unpack FILE FOLDER: puts what the archive contains into a new folder
unpack() {
    mkdir -p "$2" || return 1
    case $1 in
        *.tar.gz) tar -xzf "$1" -C "$2" ;;
        *.deb) dpkg-deb -x "$1" "$2" ;;
        *.whl) python3 -m zipfile -e "$1" "$2" ;;
        *) cp "$1" "$2" ;;
    esac
}

# compare_files FOLDER: compares the files of the release with those in the other folder. It prints those that differ,
# and what differs in them.
compare_files() {
    local name differing=0
    while read -r _ name; do
        [ "$name" != MADE-OF ] && ! cmp -s "$folder/$name" "$1/$name" || continue
        differing=1
        complain "not the same bytes: $name"
        [ -f "$1/$name" ] && unpack "$folder/$name" "$room/old/$name" && unpack "$1/$name" "$room/new/$name" &&
            (cd "$room" && diff -rq --no-dereference "old/$name" "new/$name") >&2
    done <"$folder/SHA256SUMS"
    return $differing
}
