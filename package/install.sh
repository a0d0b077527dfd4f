#!/bin/sh
# install.sh PREFIX: installs what is beside this script at PREFIX, as /usr/local. Settings go to PREFIX/etc, and of PREFIX /usr
# to /etc. A file of settings that is there stays as it is. DESTDIR, if it is set, is the root of the system that is installed to.
# PREFIX has only characters that mean themselves in a unit of systemd.
set -eu

here=$(cd "$(dirname "$0")" && pwd)

usage() {
    echo "usage: install.sh PREFIX, an absolute path of letters, digits and ./_+-, such as /usr/local" >&2
    exit 2
}

# Whether the file has one of the two marks that are replaced by paths.
has_marks() {
    grep -q -I -e @PREFIX@ -e @ETC@ "$1"
}

# Installs one file or symbolic link of the folder at a path below DESTDIR.
install_file() {
    target=${DESTDIR:-}$2
    mkdir -p "$(dirname "$target")"
    if test -L "$1"; then
        ln -sfn "$(readlink "$1")" "$target"
        return
    fi
    mode=644
    if test -x "$1"; then
        mode=755
    fi
    if has_marks "$1"; then
        sed -e "s|@PREFIX@|$prefix|g" -e "s|@ETC@|$etc|g" "$1" > "$target.new"
        install -m "$mode" "$target.new" "$target"
        rm "$target.new"
    else
        install -m "$mode" "$1" "$target"
    fi
}

# Installs the settings, except for those that are there.
install_settings() {
    find etc -type f | while read -r file; do
        target=$etc/${file#etc/}
        if test -e "${DESTDIR:-}$target"; then
            echo "kept: $target"
        else
            install_file "$file" "$target"
        fi
    done
}

if test $# -ne 1; then
    usage
fi
case $1 in
/ | *[!A-Za-z0-9./_+-]*) usage ;;
/*) prefix=${1%/} ;;
*) usage ;;
esac
etc=$prefix/etc
if test "$prefix" = /usr; then
    etc=/etc
fi

cd "$here"
umask 022
find bin lib share \( -type f -o -type l \) | while read -r file; do
    install_file "$file" "$prefix/$file"
done
install_settings
echo "installed: daapshare at $prefix, its settings at $etc"
