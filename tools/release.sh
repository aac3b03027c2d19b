#!/usr/bin/env bash
# Packs the proved program for Debian 12 on x86-64: `bash tools/release.sh FOLDER` writes FOLDER/crsm-VERSION.tar.gz with
# the program, one built for processors with AVX2, a unit for systemd, the manual page and completion, the operator's page,
# a live table of a cluster and the client in Python, and tries the program where nothing else is there. A Debian package
# of the same is written beside it.
set -eu
cd "$(dirname "$0")/.."
[ $# = 1 ] || { sed -n '2,5s/^# \{0,1\}//p' "$0" >&2; exit 2; }
mkdir -p "$1"
folder=$(realpath "$1")
scratch=$(mktemp -d)
trap 'rm -rf "$scratch"' EXIT

(cd crates/crsm && rt run --cpu=x86-64-v3 >/dev/null)
cp crates/crsm/out/crsm "$scratch/crsm-avx2"
(cd crates/crsm && rt run >/dev/null)
cp crates/crsm/out/crsm "$scratch/crsm"

version=$("$scratch/crsm" --version | cut -d' ' -f2)
name=crsm-$version
mkdir -p "$scratch/$name/python/crsm"
mv "$scratch/crsm" "$scratch/crsm-avx2" "$scratch/$name/"
cp tools/crsm@.service tools/watch.py docs/OPERATING.md "$scratch/$name/"
python3 -B tools/pages.py "$scratch/$name/crsm" man > "$scratch/$name/crsm.1"
python3 -B tools/pages.py "$scratch/$name/crsm" bash > "$scratch/$name/crsm.bash"
cp clients/python/README.md clients/python/pyproject.toml clients/python/wheel_of.py "$scratch/$name/python/"
cp clients/python/crsm/*.py clients/python/crsm/py.typed "$scratch/$name/python/crsm/"
cat > "$scratch/$name/README" <<END
crsm $version, a replicated key-value store, from commit $(git rev-parse HEAD).

crsm runs on any x86-64 processor of the last fifteen years, crsm-avx2 on one with AVX2. Both need the system's C library,
of version 2.34 or later, and nothing else. OPERATING.md says how to start nodes; crsm@.service runs one under systemd;
crsm.1 is the manual page, crsm.bash completes the words of commands; python/ has a client, and watch.py a live table of
a cluster.

What was proved, of the sources at this commit: that the output, the log, the packets and the answers of each command are
those of the protocol, and that replicas agree in every schedule; the sources' README says it clause by clause. The proofs
were checked, and the program built, by $(rt version 2>/dev/null | head -1).

sha256sum -c SHA256SUMS checks the files.
END
(cd "$scratch/$name" && find . -type f ! -name SHA256SUMS | sort | xargs sha256sum > SHA256SUMS)

# In a root that has the program, the C library and nothing else: a schedule is replayed.
for program in crsm crsm-avx2; do
  [ "$program" = crsm-avx2 ] && ! grep -qw avx2 /proc/cpuinfo && continue
  root=$scratch/root-$program
  for file in $(ldd "$scratch/$name/$program" | grep -o '/[^ ]*'); do
    mkdir -p "$root/$(dirname "$file")"
    cp -L "$file" "$root/$file"
  done
  cp "$scratch/$name/$program" "$root/"
  unshare -r chroot "$root" "/$program" replay < examples/first.schedule | cmp - examples/first.transcript
done
tar -C "$scratch" -czf "$folder/$name.tar.gz" --owner=0 --group=0 --sort=name "$name"
echo "release: $folder/$name.tar.gz"
bash tools/package.sh "$scratch/$name/crsm" "$folder"
