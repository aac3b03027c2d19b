#!/usr/bin/env bash
# Packs a program for Debian 12: `bash tools/package.sh PROGRAM FOLDER` writes FOLDER/crsm_VERSION_amd64.deb with the
# program, its manual page, its completion for bash, a unit for systemd, the user crsm and /etc/crsm, the operator's page
# and the client in Python. Where debootstrap is there and may be used, it is installed and removed in a fresh root.
set -eu
cd "$(dirname "$0")/.."
[ $# = 2 ] || { sed -n '2,4s/^# \{0,1\}//p' "$0" >&2; exit 2; }
program=$(realpath "$1")
mkdir -p "$2"
folder=$(realpath "$2")
scratch=$(mktemp -d)
trap 'rm -rf "$scratch"' EXIT
version=$("$program" --version | cut -d' ' -f2)
name=crsm_${version}_amd64.deb
root=$scratch/package

install -D -m 755 "$program" "$root/usr/bin/crsm"
mkdir -p "$root/usr/share/man/man1" "$root/usr/lib/python3/dist-packages/crsm"
python3 -B tools/pages.py "$program" man | gzip -9n > "$root/usr/share/man/man1/crsm.1.gz"
python3 -B tools/pages.py "$program" bash | install -D -m 644 /dev/stdin "$root/usr/share/bash-completion/completions/crsm"
sed 's,/usr/local/bin/,/usr/bin/,; s/^DynamicUser=yes$/User=crsm/' tools/crsm@.service |
  install -D -m 644 /dev/stdin "$root/lib/systemd/system/crsm@.service"
install -D -m 644 -t "$root/usr/share/doc/crsm" docs/OPERATING.md docs/FORMATS.md
install -D -m 755 tools/watch.py "$root/usr/share/crsm/watch.py"
install -m 644 clients/python/crsm/*.py clients/python/crsm/py.typed "$root/usr/lib/python3/dist-packages/crsm/"
install -D -m 644 /dev/stdin "$root/etc/crsm/cluster" <<'END'
# With how many nodes the cluster began, and the addresses of nodes 0, 1, .., the same at all nodes and for good:
# crsm@0.service runs node 0 at the first address. Take away the # before the two lines.
#BEGAN_WITH=3
#PEERS=10.0.0.1:7000,10.0.0.2:7000,10.0.0.3:7000
END

install -d -m 755 "$root/DEBIAN"
cat > "$root/DEBIAN/control" <<END
Package: crsm
Version: $version
Architecture: amd64
Maintainer: The authors of crsm <root@localhost>
Section: database
Priority: optional
Depends: libc6 (>= 2.34), adduser
Recommends: python3 (>= 3.11)
Installed-Size: $(du -sk "$root" | cut -f1)
Description: replicated key-value store without a leader
 Configuration, locks and metadata that sites far apart share. Every site takes
 commands, and all execute them in the order of their timestamps. That replicas
 agree is proved of the program.
END
echo /etc/crsm/cluster > "$root/DEBIAN/conffiles"
install -m 755 /dev/stdin "$root/DEBIAN/postinst" <<'END'
#!/bin/sh
set -e
if [ "$1" = configure ]; then
  getent passwd crsm > /dev/null || adduser --system --group --quiet --home /var/lib/crsm --no-create-home crsm
  install -d -o crsm -g crsm -m 750 /var/lib/crsm
  [ ! -d /run/systemd/system ] || systemctl daemon-reload
fi
END
install -m 755 /dev/stdin "$root/DEBIAN/prerm" <<'END'
#!/bin/sh
set -e
# An upgrade leaves nodes running: they are restarted one at a time, by hand (OPERATING).
if [ "$1" = remove ] && [ -d /run/systemd/system ]; then
  systemctl stop 'crsm@*.service' || true
fi
END
install -m 755 /dev/stdin "$root/DEBIAN/postrm" <<'END'
#!/bin/sh
set -e
# Logs stay, after a purge too: a node that comes back without its log breaks promises that it gave.
if [ "$1" = purge ]; then
  rmdir --ignore-fail-on-non-empty /var/lib/crsm 2> /dev/null || true
  rmdir --ignore-fail-on-non-empty /etc/crsm 2> /dev/null || true
fi
[ ! -d /run/systemd/system ] || systemctl daemon-reload
END
dpkg-deb --build --root-owner-group "$root" "$folder/$name" > /dev/null
echo "package: $folder/$name"

if [ "$(id -u)" != 0 ] || ! command -v debootstrap > /dev/null; then
  echo "package: not tried, since debootstrap is not here or not to be used"
  exit 0
fi
fresh=$scratch/fresh
debootstrap --variant=minbase --include=adduser bookworm "$fresh" > "$scratch/debootstrap.log" 2>&1 ||
  { tail -5 "$scratch/debootstrap.log" >&2; exit 1; }
cp "$folder/$name" "$fresh/tmp/"
cp examples/first.schedule "$fresh/tmp/"
in_fresh() { chroot "$fresh" /usr/bin/env -i PATH=/usr/sbin:/usr/bin:/sbin:/bin "$@"; }
in_fresh dpkg -i "/tmp/$name" > /dev/null
in_fresh sh -c 'crsm replay < /tmp/first.schedule' | cmp - examples/first.transcript
in_fresh sh -c 'test "$(stat -c %U /var/lib/crsm)" = crsm && test -f /etc/crsm/cluster && test -f /usr/share/man/man1/crsm.1.gz'
in_fresh dpkg -r crsm > /dev/null
in_fresh sh -c 'test ! -e /usr/bin/crsm && test -f /etc/crsm/cluster && test -d /var/lib/crsm'
in_fresh dpkg -P crsm > /dev/null
in_fresh sh -c 'test ! -e /etc/crsm && test ! -e /var/lib/crsm'
echo "package: installed, run, removed and purged in a fresh root"
