#!/bin/sh
# Installs what lies beside it: the program, `tw` with the planning board, the man page, examples and the second checker.
#
#     ./install.sh PREFIX    PREFIX is a folder, such as /usr/local or ~/.local
#
# It asks nothing and fetches nothing. Where something is missing it says what, and changes nothing. When it is run again, it replaces what it
# put there. Of PREFIX/lib/tidewise and PREFIX/share/tidewise nothing else is kept.
set -eu
export LC_ALL=C
umask 022
python=/usr/bin/python3

refuse() {
    echo "install.sh: $*" >&2
    exit 1
}
usage() {
    sed -n 's/^#     //p' "$0" >&2
    exit 1
}
[ $# = 1 ] || usage
case $1 in
    "" | -*) usage ;;
    /*) prefix=${1%/} ;;
    *) prefix=$PWD/${1%/} ;;
esac
here=$(cd "$(dirname "$0")" && pwd -P)

# What it needs, before anything is changed.
cd "$here"
command -v sha256sum > /dev/null || refuse "sha256sum isn't there: install coreutils"
[ -f SHA256SUMS ] || refuse "SHA256SUMS isn't beside it: unpack the whole archive, and run install.sh there"
sha256sum --status -c SHA256SUMS 2> /dev/null || refuse "a file of the archive is missing or was changed: sha256sum -c $here/SHA256SUMS says which"
[ -x "$python" ] || refuse "$python isn't there: install Python 3.11 or later, in Debian python3"
"$python" -c 'import sys; sys.exit(sys.version_info < (3, 11))' || refuse "$python is older than 3.11"
missing=
for module in click flask waitress; do
    "$python" -c "import $module" 2> /dev/null || missing="$missing python3-$module"
done
[ -z "$missing" ] || refuse "$python lacks modules that tw needs: apt-get install$missing"
version=$(bin/tidewise --version 2> /dev/null) || refuse "bin/tidewise doesn't run here: it is built for Linux on x86-64"

# Where it goes: a folder that can be written, in which nothing of another origin has these names.
at=$prefix
while [ ! -e "$at" ] && [ "$at" != / ]; do at=$(dirname "$at"); done
[ -d "$at" ] || refuse "$at is no folder"
[ -w "$at" ] || refuse "$at can't be written: choose another PREFIX, or run this as its owner"
bash=share/bash-completion/completions/tw zsh=share/zsh/site-functions/_tw fish=share/fish/vendor_completions.d/tw.fish
# One of these two stands from the first change on, also where a run was cut off.
if [ ! -f "$prefix/share/tidewise/SHA256SUMS" ] && [ ! -f "$prefix/lib/tidewise/tidewise_board/__init__.py" ]; then
    for name in bin/tidewise bin/tw lib/tidewise share/tidewise share/man/man1/tidewise.1 $bash $zsh $fish; do
        [ ! -e "$prefix/$name" ] || refuse "$prefix/$name is there, and no install.sh of Tidewise put it there: move it away, or choose another PREFIX"
    done
fi

# Each file comes to its place whole, and each folder too.
room=
trap '[ -z "$room" ] || rm -rf "$room"' EXIT
trap 'exit 130' HUP INT TERM
mkdir -p "$prefix"
room=$(mktemp -d "$prefix/.tidewise.XXXXXX")
put() {
    mkdir -p "$(dirname "$prefix/$3")"
    cp "$1" "$room/file"
    chmod "$2" "$room/file"
    mv -f "$room/file" "$prefix/$3"
}
replace() {
    mkdir -p "$(dirname "$prefix/$2")"
    chmod 755 "$1"
    rm -rf "$room/old"
    [ ! -e "$prefix/$2" ] || mv "$prefix/$2" "$room/old"
    mv "$1" "$prefix/$2"
}
mkdir "$room/share"
cp -R examples audit ./*PROVED NOTICE SHA256SUMS "$room/share"
# The scripts of examples/ look for their modules here.
ln -s ../../lib/tidewise "$room/share/board"
replace "$room/share" share/tidewise
mkdir "$room/lib"
"$python" -m zipfile -e lib/*.whl "$room/lib"
replace "$room/lib" lib/tidewise
"$python" -m compileall -q "$prefix/lib/tidewise"
put bin/tidewise 755 bin/tidewise
put bin/tw 755 bin/tw
put man/tidewise.1 644 share/man/man1/tidewise.1
"$prefix/bin/tw" --version > /dev/null || refuse "$prefix/bin/tw doesn't run"
for shell in bash zsh fish; do
    eval "to=\$$shell"
    if "$prefix/bin/tw" completion "$shell" > "$room/words" 2> /dev/null; then
        put "$room/words" 644 "$to"
    else
        echo "install.sh: tw has no completion for $shell on this machine"
    fi
done

echo "$version is in $prefix: bin/tidewise, bin/tw, share/man, share/tidewise, and words to be completed by bash, zsh and fish"
[ -f PROVED ] || echo "This build is UNPROVED: nothing is proved of what it prints."
case :$PATH: in
    *:"$prefix/bin":*) ;;
    *) echo "$prefix/bin isn't in PATH: export PATH=$prefix/bin:\$PATH" ;;
esac
