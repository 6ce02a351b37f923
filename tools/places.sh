# What ./install and ./uninstall share: `. "$top/tools/places.sh"`. `read_places ARGUMENT..` parses the arguments. It
# ends the script with the usage if they ask for it or are wrong, and else sets
#
#   prefix     the folder that programs will know, /usr/local by default
#   place      where its files go now: the prefix, below $DESTDIR
#   package    whether a Debian package is wanted, yes or no
#   origin     of ./install: `release`, `proof` if the files are proved and built first, or `comparison` with --verify
#   folder     of ./install: the folder of the release; empty for the one in the clone
#
# `list` is the file, from the prefix, that names each installed file and each folder that was made for it.
list=share/dewikonu/installed

# usage: prints the head of the script
usage() {
    sed -n '2,/^[^#]/s/^# \{0,1\}//p' "$top/$script"
}

# refuse: prints the usage, and ends with status 2
refuse() {
    usage >&2
    exit 2
}

read_places() {
    prefix=/usr/local
    package=no
    origin=release
    folder=
    [ "$script" != install ] || [ "$*" != --verify ] || { origin=comparison && shift; }
    while [ $# -gt 0 ]; do
        case $1 in
            --prefix) [ $# -gt 1 ] && [ -n "$2" ] && prefix=$2 && shift || refuse ;;
            --prefix=?*) prefix=${1#--prefix=} ;;
            --user) [ -n "${HOME-}" ] && prefix=$HOME/.local || refuse ;;
            --deb) [ "$script" = install ] && package=yes || refuse ;;
            --prove) [ "$script" = install ] && [ -z "$folder" ] && origin=proof || refuse ;;
            --from)
                [ "$script$origin" = installrelease ] && [ -d "${2-}" ] || refuse
                folder=$(realpath -- "$2") && shift || refuse
                ;;
            -h | --help)
                usage
                exit 0
                ;;
            *) refuse ;;
        esac
        shift
    done
    prefix=$(realpath -ms -- "$prefix")
    place=$(realpath -ms -- "${DESTDIR-}/$prefix")
}
