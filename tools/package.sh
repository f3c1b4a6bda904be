#!/usr/bin/env bash
# Makes a Debian package of a program that is built: `tools/package.sh PROGRAM [FOLDER]` writes FOLDER/hurgwaye_VERSION_amd64.deb, or into
# out/ where no folder is named, and prints its path. The same commit and the same program make the same octets. It needs dpkg-dev (for
# the libraries that the program wants), Python 3 and git; PACKAGE_VERSION, PACKAGE_TIME (seconds since 1970) and PACKAGE_MAINTAINER stand
# for what git says.
set -eu
export LC_ALL=C
top=$(cd "$(dirname "${BASH_SOURCE[0]}")/.." && pwd)
fail() {
    echo "tools/package.sh: $*" >&2
    exit 2
}
[ $# -ge 1 ] || fail "name the program: bash tools/build.sh makes out/lpd_server"
[ -x "$1" ] || fail "$1 is no program: bash tools/build.sh makes out/lpd_server"
for tool in dpkg-shlibdeps:dpkg-dev strip:binutils python3:python3 git:git; do
    command -v "${tool%:*}" > /dev/null || fail "${tool%:*} isn't on the path: install the package ${tool#*:}"
done
program=$(realpath "$1")
folder=$(realpath -m "${2:-$top/out}")
cd "$top"
time=${PACKAGE_TIME:-$(git log -1 --format=%ct)}
version=${PACKAGE_VERSION:-$("$program" --version | cut -d ' ' -f 2)+git$(date -u -d "@$time" +%Y%m%d).$(git log -1 --format=%h --abbrev=8)}
maintainer=${PACKAGE_MAINTAINER:-$(git log -1 --format='%an <%ae>')}
export SOURCE_DATE_EPOCH=$time
umask 022
room=$(mktemp -d)
trap 'rm -rf "$room"' EXIT
tree=$room/tree

put() { # MODE FROM TO
    install -D -m "$1" "$2" "$tree/$3"
}

put 755 "$program" usr/bin/lpd_server
strip --strip-unneeded --remove-section=.comment --remove-section=.note "$tree/usr/bin/lpd_server"
put 644 docs/lpd_server.8 usr/share/man/man8/lpd_server.8
sed -i 's#/usr/local/#/usr/#g' "$tree/usr/share/man/man8/lpd_server.8"
gzip -9n "$tree/usr/share/man/man8/lpd_server.8"
# The unit of the documents, with the program where a package puts it and the options in a file of their own.
mkdir -p "$tree/lib/systemd/system"
python3 - docs/lpd_server.service "$tree/lib/systemd/system/lpd_server.service" <<'END'
import re
import sys

text = open(sys.argv[1]).read()
text = text[text.index("[Unit]"):].replace("/usr/local/bin/", "/usr/bin/")
head, options = re.search(r"(ExecStart=.*?spool\.toml) (.*?)\n(?=#)", text, re.S).groups()
kept = re.findall(r"--(?:out|spool|account|control|log) \S+", options)
new = "EnvironmentFile=/etc/default/hurgwaye\n" + head + " --port ${PORT} \\\n    " + " ".join(kept) + " $OPTIONS\n"
text = text.replace(f"{head} {options}\n", new)
open(sys.argv[2], "w").write(text)
END
chmod 644 "$tree/lib/systemd/system/lpd_server.service"
put 644 packaging/sysusers.conf usr/lib/sysusers.d/hurgwaye.conf
put 644 packaging/tmpfiles.conf usr/lib/tmpfiles.d/hurgwaye.conf
put 644 packaging/spool.toml etc/hurgwaye/spool.toml
put 644 packaging/options etc/default/hurgwaye
put 644 packaging/completion usr/share/bash-completion/completions/lpd_server
put 644 packaging/completion.zsh usr/share/zsh/vendor-completions/_lpd_server
put 755 packaging/move-segments usr/lib/hurgwaye/move-segments
for unit in service timer; do
    put 644 "packaging/lpd_server-segments.$unit" "lib/systemd/system/lpd_server-segments.$unit"
done
doc=usr/share/doc/hurgwaye
for file in README.md docs/OPERATING.md docs/CLIENTS.md docs/ACCOUNT.md docs/SITE.md; do
    [ ! -f "$file" ] || put 644 "$file" "$doc/$(basename "$file")"
done
put 644 docs/example.toml "$doc/examples/example.toml"
[ ! -f docs/site/haproxy.cfg ] || put 644 docs/site/haproxy.cfg "$doc/examples/haproxy.cfg"
put 644 packaging/copyright "$doc/copyright"
cat > "$room/changelog" <<END
hurgwaye ($version) unstable; urgency=medium

  * Made of the repository as it stood then.

 -- $maintainer  $(date -u -R -d "@$time")
END
put 644 "$room/changelog" "$doc/changelog"
gzip -9n "$tree/$doc/changelog"
find "$tree/usr/share/doc" -name '*.md' -size +3k -exec gzip -9n {} +

control=$tree/DEBIAN
mkdir -p "$control"
# Which versions of which libraries the program wants.
mkdir -p "$room/debian"
printf 'Source: hurgwaye\n\nPackage: hurgwaye\nArchitecture: amd64\n' > "$room/debian/control"
wants=$(cd "$room" && dpkg-shlibdeps -O "tree/usr/bin/lpd_server" 2> /dev/null | sed -n 's/^shlibs:Depends=//p')
size=$(find "$tree" -path "$control" -prune -o -type f -printf '%s\n' | awk '{ k += int(($1 + 1023) / 1024) } END { print k }')
cat > "$control/control" <<END
Package: hurgwaye
Version: $version
Architecture: amd64
Maintainer: $maintainer
Installed-Size: $size
Depends: $wants, systemd | systemd-standalone-sysusers, systemd | systemd-standalone-tmpfiles
Section: net
Priority: optional
Description: print spooler for the Line Printer Daemon Protocol (RFC 1179)
 Hurgwaye receives print jobs over the network and hands each printer whole
 jobs, in order. It stands where lpd, LPRng or cups-lpd receive jobs, and their
 clients send to it unchanged. A printer is a file, a device, a pipe, a port on
 the network, or a folder in which each job becomes a file.
 .
 Installing it starts nothing: "systemctl enable --now lpd_server" does, after
 a look at /etc/default/hurgwaye and /etc/hurgwaye/spool.toml.
END
printf '/etc/default/hurgwaye\n/etc/hurgwaye/spool.toml\n' > "$control/conffiles"
for script in postinst prerm postrm; do
    install -m 755 "packaging/$script" "$control/$script"
done
(cd "$tree" && find . -path ./DEBIAN -prune -o -type f -printf '%P\n' | sort | xargs md5sum > DEBIAN/md5sums)
mkdir -p "$folder"
deb=$folder/hurgwaye_${version}_amd64.deb
dpkg-deb --root-owner-group -Zxz --build "$tree" "$deb" > /dev/null
echo "$deb"
