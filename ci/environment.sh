# What run.sh and test.sh have in common, before Python can be called: the packages without which it can't, the toolchain, and an
# environment of their own, so that what passes on one machine passes on another. They set `program`, their name, and `part`, the
# packages that they need (packages.txt).

top=$(cd "$(dirname "$0")" && pwd) || exit 1
path=/usr/local/sbin:/usr/local/bin:/usr/sbin:/usr/bin:/sbin:/bin

install_packages() { # as root, or by sudo; else it names the one command
    if [ "$(id -u)" = 0 ]; then
        sh "$top/ci/install-packages.sh" "$part"
    elif command -v sudo > /dev/null; then
        echo "$program: installs Debian's packages by sudo:" $(sh "$top/ci/install-packages.sh" "$part" --list)
        sudo sh "$top/ci/install-packages.sh" "$part"
    else
        echo "$program: packages are missing. As root, from this folder: sh ci/install-packages.sh $part" >&2
        return 1
    fi
}

find_rt() { # the folder of the toolchain's command
    for folder in $(echo "$PATH" | tr : ' ') /opt/*/bin /usr/local/*/bin "$HOME"/*/bin; do
        if [ -x "$folder/rt" ] && grep -q Rattle "$folder/rt" 2> /dev/null; then
            echo "$folder"
            return
        fi
    done
}

start() { # FILE [ARGUMENT ..]: runs a file of Python, below the top, in the environment
    file=$1
    shift
    if [ ! -e /proc/self ]; then
        echo "$program: there is no /proc here; as root: mount -t proc proc /proc" >&2
        exit 1
    fi
    if [ ! -x /usr/bin/python3 ] || [ -z "$(PATH=$path command -v git)" ]; then
        install_packages || exit 1
    fi
    rt=$(find_rt)
    exec env -i PATH="${rt:+$rt:}$path" HOME="${HOME:-/}" LANG=C.UTF-8 TERM="${TERM:-dumb}" ${TMPDIR:+TMPDIR="$TMPDIR"} \
        ${CI:+CI="$CI"} ${RT_JOBS:+RT_JOBS="$RT_JOBS"} ${http_proxy:+http_proxy="$http_proxy"} \
        ${https_proxy:+https_proxy="$https_proxy"} ${no_proxy:+no_proxy="$no_proxy"} \
        /usr/bin/python3 "$top/$file" "$@"
}
