#!/usr/bin/env bash
# The page of the definitions in a real browser: tests/definitions/page.sh. Makes it (tools/definitions.py --html), opens it in headless Chromium as wide as a desk
# and as narrow as a phone, follows its links and prints it. By hand, when the page's script changed: the gate checks ids and links without a browser.
# Needs Debian's package chromium.
set -u
cd "$(dirname "$0")/../.." || exit 1
command -v chromium >/dev/null || { echo "page: no chromium: apt-get install chromium"; exit 1; }
out=target/page-test
rm -rf $out
mkdir -p $out
tools/definitions.py --html $out/page.html || exit 1
{ sed 's|</body></html>||' $out/page.html; echo '<script>'; cat tests/definitions/page.js; echo '</script></body></html>'; } >$out/tested.html
browser() { timeout 300 chromium --headless=new --no-sandbox --disable-gpu --user-data-dir="$PWD/$out/profile" "$@" 2>$out/err; }
failed=0
for size in 1400,1000 500,900; do
    said=$(browser --window-size=$size --dump-dom "file://$PWD/$out/tested.html" | grep -o 'data-result="[^"]*"' | head -n 1)
    said=${said#data-result=}
    echo "page: ${said:-FAILED: the browser said nothing}"
    case $said in '"ok,'*) ;; *) failed=1 ;; esac
done
browser --no-pdf-header-footer --print-to-pdf="$PWD/$out/page.pdf" "file://$PWD/$out/page.html" || failed=1
pages=$(grep -ac '/Type */Page\b' $out/page.pdf)
echo "page: printed, $pages pages"
[ "$pages" -gt 10 ] || failed=1
rm -rf $out/profile
exit $failed
