# What packages.py does in a fresh root of Debian, as root: /srv/2+1 and /srv/2+2 are the packages of two versions.
set -eu
export DEBIAN_FRONTEND=noninteractive LC_ALL=C.UTF-8
books=/var/lib/outagebook
samples=/usr/share/doc/outagebook/examples
saidi='SAIDI     all      4073935/20986 194.126'

trap 'kill $(cat /srv/*.pid 2> /dev/null) 2> /dev/null || true; wait' EXIT

fail() { # TEXT
    echo "packages: $1" >&2
    exit 1
}

apt_get() { # WORDS ..
    apt-get --yes --no-install-recommends "$@" > /srv/apt.log 2>&1 || {
        tail -n 40 /srv/apt.log
        fail "apt-get $*"
    }
}

at_books() { # COMMAND: runs it as the user of the books
    runuser -u outagebook -- sh -c "umask 0077; cd $books && $1"
}

start_unit() { # UNIT PIDFILE: runs what a unit starts, with what it reads
    (
        eval "$(sed -n 's/^Environment=\([^T]\)/\1/p' "/lib/systemd/system/$1")"
        . /etc/default/outagebook
        . /etc/default/outagebook-screen
        export TMPDIR=$books
        eval "runuser -u outagebook -- $(sed -n 's/^ExecStart=//p' "/lib/systemd/system/$1") & echo \$! > $2"
    )
}

answers() { # PORT: a desk and its screen, started by their units, answer: the screen at 8081 and the desk at PORT
    start_unit outagebook.service /srv/desk.pid
    start_unit outagebook-screen.service /srv/screen.pid
    python3 - "$1" << 'END' || fail 'desk and screen do not answer'
import json, sys, time, urllib.request
def text(url):
    asked = urllib.request.Request(url, headers={"Host": "screen.example.org", "X-Remote-User": "desk-anna"})
    for turn in range(600):  # five minutes, on a machine with much other work
        try:
            return urllib.request.urlopen(asked).read().decode()
        except OSError as error:
            why = error
            time.sleep(0.5)
    sys.exit(f"{url}: {why}")
assert "4073935/20986" in text(f"http://127.0.0.1:{sys.argv[1]}/table")
health = json.loads(text("http://127.0.0.1:8081/health"))
assert health["desk"] == "here" and health["differs"] is None, health
assert "<html" in text("http://127.0.0.1:8081/")
END
    kill "$(cat /srv/screen.pid)" "$(cat /srv/desk.pid)"
    rm /srv/screen.pid /srv/desk.pid
    while [ -n "$(find /proc -maxdepth 2 -name exe -lname '/usr/bin/outagebook' 2> /dev/null)" ]; do sleep 0.2; done
}

whole() { # the packages are there, each command with its help and its page, and the book has its figures
    for command in /usr/bin/outagebook*; do
        [ -e "/usr/share/man/man1/$(basename "$command").1.gz" ] || fail "$command has no manual page"
        "$command" --help > /dev/null || fail "$command --help: status $?"
    done
    [ "$(at_books 'outagebook table' | grep '^SAIDI     all')" = "$saidi" ] || fail 'another SAIDI'
    at_books 'outagebook-compare book.db' | grep -q '^equal: ' || fail 'the tools find other figures'
}

gone() { # nothing of the programs is left
    for path in /usr/bin/outagebook* /usr/lib/outagebook /usr/share/doc/outagebook* /lib/systemd/system/outagebook*; do
        [ ! -e "$path" ] || fail "$path is left"
    done
}

echo '== installed'
apt_get install /srv/2+1/*.deb
[ "$(stat -c '%U %G %a' $books)" = 'outagebook outagebook 700' ] || fail "$books: $(stat -c '%U %G %a' $books)"
[ "$(getent passwd outagebook | cut -d: -f6-7)" = "$books:/usr/sbin/nologin" ] || fail 'the user of the books'
at_books "outagebook init --first 2025-03-24 --days 14 --zone CET-1CEST,M3.5.0,M10.5.0/3" | grep -qx created
at_books "outagebook import $samples/fortnight/fortnight.csv" | grep -qx 'added 102 again 0'
whole
answers 8080

echo '== upgraded'
sed -i 's/^PORT=.*/PORT=8090/' /etc/default/outagebook
apt_get install /srv/2+2/*.deb
[ "$(dpkg-query -f '${Version} ' -W outagebook outagebook-tools outagebook-screen)" = '2+2 2+2 2+2 ' ] || fail 'versions'
whole
answers 8090

echo '== removed'
apt_get remove outagebook outagebook-tools outagebook-screen
gone
grep -qx PORT=8090 /etc/default/outagebook || fail 'what was set is lost'
[ -e $books/book.db ] || fail 'the book is lost'

echo '== purged'
apt_get purge outagebook outagebook-tools outagebook-screen
gone
[ ! -e /etc/default/outagebook ] && [ ! -e /etc/default/outagebook-screen ] && [ ! -e /etc/outagebook ] || fail 'settings are left'
[ "$(stat -c '%U %a' $books/book.db)" = 'outagebook 600' ] || fail 'the book is lost, or nobody has it'

echo '== installed again: the book is there, in its place'
apt_get install /srv/2+2/*.deb
whole

echo '== purged without a book'
rm -r $books/*
apt_get purge outagebook outagebook-tools outagebook-screen
gone
[ ! -e $books ] || fail "$books is left"
! getent passwd outagebook || fail 'the user is left'
! getent group outagebook || fail 'the group is left'
