#!/bin/sh
# Installs the program, its tools, the desk's screen, manual page, completions, pages and examples under PREFIX
# (/usr/local).
#
#     ./install.sh [PREFIX]
#
# The program has to be built before; PROGRAM=FILE names another build of it. What is there is written over, nothing else
# is touched. DESTDIR, where it is set, comes before PREFIX, for those who make packages.
set -eu

here=$(cd "$(dirname "$0")" && pwd)
prefix=${1:-/usr/local}
program=${PROGRAM:-$here/crates/outagebook/out/outagebook}
to=${DESTDIR:-}$prefix

if [ $# -gt 1 ] || [ "${prefix#/}" = "$prefix" ]; then
    echo "usage: ./install.sh [PREFIX], a whole path" >&2
    exit 64
fi
if [ ! -x "$program" ]; then
    echo "install.sh: there is no program at $program: sh run.sh builds it" >&2
    exit 1
fi

put() { # MODE FILE PLACE
    [ -d "$to/${3%/*}" ] || mkdir -p "$to/${3%/*}"
    cp "$2" "$to/$3.new"
    chmod "$1" "$to/$3.new"
    mv "$to/$3.new" "$to/$3"
}

put 755 "$program" bin/outagebook
(cd "$here/tools" && find outage_tools -name '*.py' -o -name '*.sql') | sort | while read -r module; do
    put 644 "$here/tools/$module" "lib/outagebook/$module"
done
for module in commands from_file interruptions model state; do # the model, for outagebook-compare
    put 644 "$here/oracle/$module.py" "lib/outagebook/oracle/$module.py"
done
for file in "$here"/tools/*.py; do
    tool=$(basename "$file" .py)
    put 755 "$file" "lib/outagebook/$tool.py"
    ln -sf "../lib/outagebook/$tool.py" "$to/bin/outagebook-$(echo "$tool" | tr _ -)"
done
(cd "$here/screen" && find server static -type f ! -name '*.pyc') | sort | while read -r file; do
    put 644 "$here/screen/$file" "lib/outagebook/screen/$file"
done
put 755 "$here/screen/outagebook-screen" lib/outagebook/screen/outagebook-screen
ln -sf ../lib/outagebook/screen/outagebook-screen "$to/bin/outagebook-screen"
put 644 "$here/packaging/outagebook.1" share/man/man1/outagebook.1
put 644 "$here/packaging/outagebook.bash" share/bash-completion/completions/outagebook
put 644 "$here/packaging/_outagebook" share/zsh/site-functions/_outagebook
put 644 "$here/packaging/outagebook.fish" share/fish/vendor_completions.d/outagebook.fish
documents=share/doc/outagebook
documents_of() { # prints the pages, the examples and the files of services and proxies, with their places in the repository
    (cd "$here" && find README.md CHANGELOG.md CONTRIBUTING.md SECURITY.md docs examples deploy \
        -type f ! -name '.*' ! -name '*.db*') | sort
}
without_links() { # PAGE: prints the commands of sed, one for each file that the page links to and that isn't there
    sed 's/](/\
&/g' "$1" | sed -n 's/^](\([^)#]*\)[^)]*).*/\1/p' | sort -u | while read -r target; do
        case $target in
        '' | *://* | mailto:*) ;;
        *) [ -e "${1%/*}/$target" ] || printf '%s\n' "$target" ;;
        esac
    done | sed -e 's/[].[*^$\|]/\\&/g' \
        -e 's/.*/s|!\\{0,1\\}\\[\\([^][]*\\(\\[[^][]*\\][^][]*\\)*\\)\\](&\\(#[^)]*\\)\\{0,1\\})|\\1|g/'
}
documents_of | while read -r file; do
    put 644 "$here/$file" "$documents/$file"
done
# The pages link to sources too, which aren't installed: of a link to a file that isn't there, its text alone is kept.
# sed reads two lines at a time, since a link's text may go on in the next line; blocks (```) are kept as they are.
documents_of | sed -n '/\.md$/p' | while read -r file; do
    page=$to/$documents/$file
    commands=$(without_links "$page")
    if [ -n "$commands" ]; then
        # shellcheck disable=SC2016
        sed -e '/^[[:space:]]*```/,/^[[:space:]]*```/b' -e '$!N' -e "$commands" -e P -e D "$page" >"$page.new"
        chmod 644 "$page.new"
        mv "$page.new" "$page"
    fi
done
echo "installed under $prefix"
