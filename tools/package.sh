# What the scripts that make packages share; it needs tools/build.sh. If SOURCE_DATE_EPOCH is set, it is the date of all
# files in a package, and equal files give equal packages. `root` is the folder with the files of a Debian package, as
# they will be below /. `release` is the name of the release, such as 1.0.0-preview.

# packed FOLDER NAME: writes the folder, under this name, as a tar archive whose bytes depend only on its files
packed() {
    tar -C "$1" --sort=name --format=gnu --owner=0 --group=0 --numeric-owner --mode=go-w,go+rX \
        --mtime="@${SOURCE_DATE_EPOCH:-$(date +%s)}" --transform="flags=r;s|^\.|$2|" -c . | gzip -9n
}

# put_licences FOLDER: copies the licences of Dewikonu, and of the parts of the kit that its programs contain
put_licences() {
    install -D -m 644 "$top/licences/debian-copyright" "$1/copyright" &&
        install -m 644 "$top/licences/dewikonu.spdx" "$top/docs/internals/LICENCES.md" "$top"/LICENSE-{MIT,APACHE} "$1"
}

# libc_needed FILE..: prints the version of the C library that the programs and libraries need
libc_needed() {
    objdump -T "$@" | grep -o 'GLIBC_[0-9.]*' | sed 's/GLIBC_//' | sort -V | tail -n 1
}

# debian_version: prints the version of a Debian package of the release: 1.0.0~preview comes before 1.0.0
debian_version() {
    printf %s "$release" | tr - '~'
}

# put_control NAME SECTION DEPENDS: writes the control file; standard input is the description
put_control() {
    mkdir -p "$root/DEBIAN" && cat - >"$root/DEBIAN/description" || return 1
    cat >"$root/DEBIAN/control" <<END
Package: $1
Version: $(debian_version)
Architecture: amd64
Maintainer: $(sed -n 's/^Copyright (c) [0-9]* //p' "$top/LICENSE-MIT")
Section: $2
Priority: optional
Depends: $3
Installed-Size: $(find "$root/usr" -type f -printf '%s\n' | awk '{ sum += int(($1 + 1023) / 1024) } END { print sum }')
$(cat "$root/DEBIAN/description")
END
    rm "$root/DEBIAN/description"
}

# build_package FILE: builds the Debian package, or prints why it cannot be built
build_package() {
    local words
    [ -z "${SOURCE_DATE_EPOCH-}" ] || find "$root" -exec touch -hd "@$SOURCE_DATE_EPOCH" {} + || return 1
    if ! words=$(dpkg-deb --build --root-owner-group "$root" "$1.new.$$" 2>&1) || ! mv -f "$1.new.$$" "$1"; then
        rm -f "$1.new.$$"
        complain "$words"
        return 1
    fi
}
