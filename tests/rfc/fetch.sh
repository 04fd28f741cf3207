#!/usr/bin/env bash
# RFC 6386's own text as FOLDER/rfc6386.txt: tests/rfc/fetch.sh FOLDER. It comes from Debian's package doc-rfc-informational (component non-free,
# through the machine's own package sources) and is checked by its sha256. The text is for reading and for tests; none of it is kept here.
set -eu
sum=c044997ae5e26f74dc28569f8866937412b2783e887c96e0c09372af78be411c
mkdir -p "$1"
out=$(cd "$1" && pwd)
text=$out/rfc6386.txt
if [ ! -s "$text" ]; then
    apt=$out/apt
    mkdir -p "$apt/lists/partial" "$apt/cache/archives/partial" "$apt/parts"
    for f in /etc/apt/sources.list.d/*.sources; do
        [ -f "$f" ] || continue
        sed 's/^Components:.*/Components: non-free/; s/^Types:.*/Types: deb/' "$f" >"$apt/parts/$(basename "$f")"
    done
    [ ! -f /etc/apt/sources.list ] || sed -n 's/^deb \(.*\) main.*/deb \1 non-free/p' /etc/apt/sources.list >"$apt/parts/list.list"
    get() {
        apt-get -q -o Dir::Etc::SourceList=/dev/null -o Dir::Etc::SourceParts="$apt/parts" -o Dir::State::Lists="$apt/lists" -o Dir::Cache="$apt/cache" \
            -o APT::Sandbox::User=root "$@"
    }
    (get update && cd "$out" && get download doc-rfc-informational) >"$out/apt.log" 2>&1 || { tail -n 3 "$out/apt.log" >&2; exit 1; }
    dpkg-deb --fsys-tarfile "$out"/doc-rfc-informational_*.deb | tar -xO ./usr/share/doc/RFC/informational/rfc6386.txt.gz | gzip -dc >"$text.new"
    rm -f "$out"/doc-rfc-informational_*.deb
    mv "$text.new" "$text"
fi
echo "$sum  $text" | sha256sum --check --quiet - || { echo "$text is another text than the line numbers here are of" >&2; exit 1; }
echo "$text: $(wc -l <"$text") lines"
