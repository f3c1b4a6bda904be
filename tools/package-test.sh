#!/usr/bin/env bash
# Tries the package of a program that is built on a bare Debian: `tools/package-test.sh PROGRAM [FOLDER]` makes one in FOLDER by debootstrap
# (it needs root, and the network once), or takes the one that is there; installs the package, prints a job, upgrades while jobs come,
# removes and purges. The last line is `passed`. No server is left, and nothing outside FOLDER is changed.
set -eu
export LC_ALL=C
fail() {
    echo "tools/package-test.sh: $*" >&2
    exit 2
}
[ $# -ge 1 ] || fail "name the program: bash tools/build.sh makes out/lpd_server"
[ -x "$1" ] || fail "$1 is no program: bash tools/build.sh makes out/lpd_server"
[ "$(id -u)" = 0 ] || fail "it makes a Debian of its own, which takes root"
program=$(realpath "$1")
root=$(realpath -m "${2:-/var/tmp/hurgwaye-debian}")
top=$(cd "$(dirname "${BASH_SOURCE[0]}")/.." && pwd)
if [ ! -x "$root/usr/bin/apt-get" ]; then
    command -v debootstrap > /dev/null || fail "debootstrap isn't on the path: install the package debootstrap"
    debootstrap --variant=minbase bookworm "$root" > "$root.log" || fail "no Debian could be made: $root.log has why"
fi
room=$(mktemp -d)
trap 'rm -rf "$room"' EXIT

# Twice the same octets, wherever it is made.
old=$(PACKAGE_VERSION=0.1.0~old bash "$top/tools/package.sh" "$program" "$room/one")
new=$(PACKAGE_VERSION=0.1.0~tried bash "$top/tools/package.sh" "$program" "$room/one")
again=$(PACKAGE_VERSION=0.1.0~tried bash "$top/tools/package.sh" "$program" "$room/two")
cmp "$new" "$again"
echo "made twice, the same octets: $(stat -c %s "$new")"
mkdir -p "$root/packages"
cp "$old" "$root/packages/old.deb"
cp "$new" "$root/packages/new.deb"
# Nothing is started by what it stands on either.
printf '#!/bin/sh\nexit 101\n' > "$root/usr/sbin/policy-rc.d"
chmod +x "$root/usr/sbin/policy-rc.d"
mkdir -p "$root/run"
unshare --mount sh -c "mount -t proc proc $root/proc && chroot $root sh -c 'apt-get update -qq && apt-get install -qq -y --no-install-recommends /packages/old.deb'" \
    > "$room/install.log" 2>&1 || { cat "$room/install.log"; exit 1; }

cat > "$root/packages/inner.sh" <<'END'
set -eu
fail() {
    echo "WRONG: $*"
    [ ! -f /tmp/server.log ] || tail -5 /tmp/server.log
    exit 1
}
running() { pgrep_one=$(for p in /proc/[0-9]*; do [ "$(readlink "$p/exe" || true)" != "$1" ] || echo "${p#/proc/}"; done); [ -n "$pgrep_one" ]; }
ip link set lo up 2> /dev/null || python3 -c pass 2> /dev/null || true
program=/usr/bin/lpd_server
getent passwd hurgwaye > /dev/null || fail "no user"
[ "$(stat -c %a:%U /var/lib/hurgwaye/spool)" = 700:hurgwaye ] || fail "the folder of jobs is $(stat -c %a:%U /var/lib/hurgwaye/spool)"
! running $program || fail "something was started"
[ ! -e /etc/systemd/system/multi-user.target.wants/lpd_server.service ] || fail "it is enabled"
echo "installed: user $(id hurgwaye), nothing runs, nothing is enabled"
units="lpd_server.service lpd_server-segments.service lpd_server-segments.timer"
# shellcheck disable=SC2086
systemd-analyze verify --man=no $units > /tmp/verified 2>&1 || fail "the units: $(cat /tmp/verified)"
echo "systemd-analyze verify: $(grep -c lpd_server /tmp/verified || true) lines about $units"
[ ! -e /etc/systemd/system/timers.target.wants/lpd_server-segments.timer ] || fail "the timer is enabled"
echo "systemd-analyze security: $(systemd-analyze security --offline=true lpd_server.service 2> /dev/null | tail -1)"
lpd_server check /etc/hurgwaye/spool.toml --sizes > /dev/null || fail "its configuration can't be read"
test -f /usr/share/man/man8/lpd_server.8.gz || echo "(no man page: excluded here)"

# As the unit starts it: its words, with its options, by its user, with the one right that it has.
. /dev/null
port=$(sed -n 's/^PORT=//p' /etc/default/hurgwaye)
options=$(sed -n 's/^OPTIONS=//p' /etc/default/hurgwaye)
words=$(sed -n '/^ExecStart=/,/[^\\]$/p' /lib/systemd/system/lpd_server.service | tr -d '\\\n' | sed "s/^ExecStart=//; s/\${PORT}/$port/; s/\$OPTIONS//")
start() {
    # shellcheck disable=SC2086
    (cd / && umask 027 && exec setpriv --reuid hurgwaye --regid hurgwaye --init-groups --inh-caps +net_bind_service \
        --ambient-caps +net_bind_service $words $options) >> /tmp/server.log 2>&1 &
    server=$!
    for _ in $(seq 300); do
        lpd_server control /run/hurgwaye/control status > /dev/null 2>&1 && return
        sleep 0.2
    done
    fail "the server doesn't start"
}
start
head -c 30000 /usr/bin/lpd_server > /tmp/job
lpd_server send "$port" lp 1 host ann /tmp/job > /dev/null || fail "a job isn't taken"
for _ in $(seq 100); do [ "$(ls /var/lib/hurgwaye/printed | wc -l)" = 1 ] && break; sleep 0.1; done
cmp /tmp/job /var/lib/hurgwaye/printed/* || fail "it isn't printed"
echo "printed: $(ls -l /var/lib/hurgwaye/printed | tail -1)"

# An upgrade while jobs come. What was acknowledged is printed, before or after it; a changed conffile stays.
echo '# changed here' >> /etc/default/hurgwaye
: > /tmp/acknowledged
(
    n=0
    while [ ! -e /tmp/enough ]; do
        n=$((n + 1))
        printf 'job %s.' "$n" > /tmp/job-$n
        if lpd_server send "$port" lp $((n % 1000)) host ann /tmp/job-$n > /dev/null 2>&1; then echo "$n" >> /tmp/acknowledged; else sleep 0.2; fi
    done
) &
sending=$!
sleep 3
before=$(wc -l < /tmp/acknowledged)
dpkg -i /packages/new.deb > /tmp/upgraded 2>&1 || fail "the upgrade: $(cat /tmp/upgraded)"
grep -q 'has to be started again' /tmp/upgraded || fail "the upgrade says nothing: $(cat /tmp/upgraded)"
status=0
wait $server || status=$?
[ $status = 0 ] || fail "the server ended with $status"
grep -q '^# changed here' /etc/default/hurgwaye || fail "a conffile was overwritten"
! running $program || { kill -0 $sending && ! running "$program (deleted)" || fail "it was started"; }
start
sleep 3
touch /tmp/enough
wait $sending
lpd_server control /run/hurgwaye/control stop 60 > /dev/null || fail "no stop"
wait $server || true
cat /var/lib/hurgwaye/printed/* > /tmp/all
lost=0
while read -r n; do grep -qa "job $n\." /tmp/all || lost=$((lost + 1)); done < /tmp/acknowledged
echo "upgraded: acknowledged $before before it, $(wc -l < /tmp/acknowledged) in all, lost $lost, kept and not printed $(find /var/lib/hurgwaye/spool -name '*.job' | wc -l)"
[ $lost = 0 ] && [ "$(wc -l < /tmp/acknowledged)" -gt "$before" ] || fail "jobs"
dpkg-query -W -f '${Version} ${Status}\n' hurgwaye

# All segments of the account but the last one are moved, and what is left goes on as the same account.
account=/var/lib/hurgwaye/account
before=$(find $account -name 'segment-*' | wc -l)
setpriv --reuid hurgwaye --regid hurgwaye --init-groups /usr/lib/hurgwaye/move-segments $account $account-old > /tmp/moved || fail "segments: $(cat /tmp/moved)"
[ "$(find $account -name 'segment-*' | wc -l)" = 1 ] || fail "$(ls $account)"
[ "$before" -gt 1 ] && [ "$(find $account-old -name 'segment-*' | wc -l)" = $((before - 1)) ] || fail "of $before segments: $(ls $account-old)"
start
lpd_server control /run/hurgwaye/control stop 60 > /dev/null || fail "no stop"
wait $server || true
lpd_server audit $account-old/segment-* $account/segment-* > /tmp/audited || fail "the account isn't whole: $(cat /tmp/audited)"
echo "$(cat /tmp/moved); $(head -1 /tmp/audited)"

# Removing stops it and keeps data; purging takes data away.
start
dpkg -r hurgwaye > /tmp/removed 2>&1 || fail "removing: $(cat /tmp/removed)"
wait $server || true
[ ! -e $program ] || fail "the program is there"
[ -d /var/lib/hurgwaye/account ] && [ -f /etc/hurgwaye/spool.toml ] || fail "data is gone"
echo "removed: stopped, data and configuration stay"
dpkg -P hurgwaye > /tmp/purged 2>&1 || fail "purging: $(cat /tmp/purged)"
[ ! -e /var/lib/hurgwaye ] && [ ! -e /etc/hurgwaye ] && [ ! -e /etc/default/hurgwaye ] && [ ! -e /run/hurgwaye ] || fail "purging left something"
grep 'takes away' /tmp/purged || fail "purging says nothing"
left=$(dpkg -L hurgwaye 2> /dev/null || true)
[ -z "$left" ] || fail "left: $left"
echo passed
END
unshare --mount --net --pid --fork sh -c "ip link set lo up; mount -t proc proc $root/proc && exec chroot $root bash /packages/inner.sh"
