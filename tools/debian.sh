#!/usr/bin/env bash
# The Debian packages hookbarley and libhookbarley-dev: tools/debian.sh [FOLDER]. Proves and builds the archive where it is missing, lets
# dpkg-buildpackage (debhelper) make the packages from packaging/debian in FOLDER, target/debian where none is given, and lintian check
# them: an error or a warning is a failure. On x86-64.
set -eu
folder=${1:-target/debian}
mkdir -p "$folder"
folder=$(cd "$folder" && pwd -P)
cd "$(dirname "$0")/.."
. tools/outside-env.sh
[ -z "$X86RUN" ] || { echo "on x86-64 only" >&2; exit 1; }
need dpkg-buildpackage dpkg-dev
need dh debhelper
need lintian lintian
version=$(sed -n 's/^#define HOOKBARLEY_VERSION "\(.*\)"$/\1/p' include/hookbarley.h)
tree=$folder/hookbarley-$version
rm -rf "$tree"
mkdir -p "$tree"
cp -R cli include examples tools packaging NOTICE CHANGELOG.md "$tree"
mv "$tree/packaging/debian" "$tree/debian"
cp "$ARCHIVE" "$tree/libhookbarley.a"
# The changes are in CHANGELOG.md; what Debian asks for names the version.
{
    printf 'hookbarley (%s) unstable; urgency=medium\n\n  * Release %s; CHANGELOG.md says what changed.\n\n' "$version" "$version"
    printf ' -- Hookbarley maintainers <maintainers@users.noreply.hookbarley.example>  %s\n' "$(date -R -u -d "@$(git log -1 --format=%ct)")"
} >"$tree/debian/changelog"
(cd "$tree" && dpkg-buildpackage -b -us -uc) >"$folder/log" 2>&1 || { tail -n 20 "$folder/log" >&2; exit 1; }
lintian --fail-on error,warning "$folder/hookbarley_${version}_amd64.changes"
echo "$(lintian --version | head -n 1): no error, no warning"
ls -1 "$folder"/*"_${version}_amd64.deb"
