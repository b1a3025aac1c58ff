#!/bin/bash
# try-deb-inside.sh without|with
#
# What try-deb.sh runs in its Debian, where /try has the packages and the source. Not for any other machine.
#
# `must` looks at expressions itself, which so stand in single quotes.
# shellcheck disable=SC2016,SC2034
set -u
cd /try || exit 1
exec 2>&1
export DEBIAN_FRONTEND=noninteractive LC_ALL=C.UTF-8
conf=/etc/roam/roam.conf
failed=
must() {
    if "${@:2}"; then
        echo "yes: $1"
    else
        echo "NO: $1"
        failed=yes
    fi
}
# Runs a command whose words are looked at only where it fails.
quiet() {
    "$@" > /try/printed 2>&1 || {
        cat /try/printed
        return 1
    }
}
printed() { grep -q "$1" /try/printed; }
not() { ! "$@"; }
# Whatever a purge could leave: all files, and folders named for it, but the package system's own, logs and caches.
files() {
    find / -xdev \( -path /try -o -path /proc -o -path /sys -o -path /run -o -path /tmp -o -path /root -o -path /var/tmp \
        -o -path /var/lib/dpkg -o -path /var/lib/apt -o -path /var/lib/systemd -o -path /var/log -o -path /var/cache \) -prune \
        -o \( ! -type d -o -name '*roam*' \) -print | sort
}
# Changes a file by a command of sed: one that changes nothing would try nothing.
edit() { cp -p "$1" /try/unedited; sed -i "$2" "$1"; must "an edit changes ${1##*/}" not cmp -s "$1" /try/unedited; }
put_sample() { install -m 600 /usr/share/doc/roam/samples/visited-network.conf $conf; }

without() {
    files > before
    must "dpkg installs it" quiet dpkg -i first.deb
    must "and says what to do next" printed 'put a configuration into /etc/roam/roam.conf'
    must "the program says what the one says that was built" eval '[ "$(roam version)" = "$(source/crates/roam/out/roam version)" ]'
    must "its files are as they were packed" eval '[ -z "$(dpkg --verify roam)" ]'
    must "it says its version, the package's" eval \
        'case $(dpkg-query -W -f "\${Version}" roam) in "$(roam version | sed -n "s/^roam //p")"[~-]*) ;; *) false ;; esac'
    must "/etc/roam is root's alone" [ "$(stat -c '%a %U' /etc/roam)" = "700 root" ]
    must "there is no configuration" [ ! -e $conf ]
    for sample in /usr/share/doc/roam/samples/*.conf /usr/share/doc/roam/examples/*.conf; do
        must "roam check ${sample##*/}" quiet roam check "$sample"
    done
    put_sample
    echo '# a line of the operator' >> $conf
    cp -p $conf kept
    must "it is upgraded" quiet dpkg -i second.deb
    must "which says nothing of a configuration that it takes" not printed 'roam:'
    must "the configuration stays" cmp $conf kept
    must "with its mode" [ "$(stat -c '%a %U' $conf)" = "600 root" ]
    edit $conf '1i shards = 0'
    must "it is installed over one that refuses the configuration" quiet dpkg -i second.deb
    must "and says so" printed 'refuses /etc/roam/roam.conf'
    must "it is removed" quiet dpkg -r roam
    must "with its program" [ ! -e /usr/bin/roam ]
    must "the configuration stays" [ -e $conf ]
    must "it is purged" quiet dpkg -P roam
    files > after
    must "nothing is left" quiet diff before after
    echo "without systemd: ${failed:-no} failure"
}

of() { systemctl show -p "$1" --value roam; }
serves() { [ "$(of ActiveState)" = active ] && [ -n "$(ss -H -u -l -n 'sport = :1812')" ]; }
within() {
    for _ in $(seq "$1"); do
        "${@:2}" && return 0
        sleep 1
    done
    return 1
}
said() { journalctl -u roam --no-pager -o cat | grep -q "$1"; }

first_answer() {
    local start=$SECONDS
    must "apt installs it" quiet apt-get install -y ./first.deb
    must "the pages' quick start, in an empty folder" source/packaging/tests/try-pages.py --booted --pages /usr/share/doc/roam \
        /usr/bin/roam QUICKSTART
    echo "from the package to all answers of the quick start: $((SECONDS - start)) s"
}

the_unit() {
    must "nothing was started or enabled" eval '[ "$(of ActiveState) $(of UnitFileState)" = "inactive disabled" ]'
    must "without a configuration it isn't served" not systemctl start roam 2> /dev/null
    must "and the journal says why" said "there is no $conf"
    systemctl stop roam
    put_sample
    chmod 644 $conf
    must "one that others can read is served" quiet systemctl enable --now roam
    must "with a word about that" said "not only root may read"
    chmod 600 $conf
    must "it serves" within 20 serves
    cp -p $conf kept
    main=$(of MainPID)
    must "it is upgraded while it serves" quiet apt-get install -y ./second.deb
    must "which says what to do" printed 'systemctl restart roam'
    must "the same process serves on" eval '[ "$(of MainPID)" = "$main" ] && serves'
    must "with the same configuration" cmp $conf kept
    must "after a restart another one" eval 'systemctl restart roam && within 20 serves && [ "$(of MainPID)" != "$main" ]'
}

to_be_rid_of_it() {
    must "it is removed while it serves" quiet apt-get remove -y roam
    must "and serves no longer" [ -z "$(ss -H -u -l -n 'sport = :1812')" ]
    must "the configuration stays" cmp $conf kept
    must "installed again it is as it was" eval 'quiet apt-get install -y ./second.deb && cmp $conf kept && systemctl start roam'
    must "and still enabled" [ "$(of UnitFileState)" = enabled ]
    must "it is purged while it serves" quiet apt-get purge -y roam
    must "and serves no longer" [ -z "$(ss -H -u -l -n 'sport = :1812')" ]
    files > after
    must "nothing is left" quiet diff before after
}

# The commands of the pages install it in both ways, one after the other, and so it has to be taken away in both ways.
the_pages() {
    must "the commands of the pages" source/packaging/tests/try-pages.py --booted source/crates/roam/out/roam OPERATING MIGRATING
    must "systemctl disable --now roam" quiet systemctl disable --now roam
    must "make uninstall" quiet make -C source/packaging uninstall
    must "apt purge roam" quiet apt-get purge -y roam
    files > after
    must "nothing is left but empty folders" quiet diff <(grep -v radsecproxy.conf before) <(grep -v radsecproxy.conf after)
}

with() {
    files > before
    first_answer
    the_unit
    to_be_rid_of_it
    the_pages
    echo "with systemd: ${failed:-no} failure"
}

case ${1:-} in
    without | with) "$1" ;;
    *) echo "usage: try-deb-inside.sh without|with" >&2 && exit 2 ;;
esac
[ -z "$failed" ]
