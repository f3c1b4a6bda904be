#!/usr/bin/env bash
# Looks at a status page in a real browser, Debian's chromium: `tools/status-page.sh PAGE FOLDER NAME`, where PAGE is a URL, or a file that
# beside/status_demo printed. It writes pictures NAME-wide-light.png, NAME-wide-dark.png, NAME-phone-light.png and NAME-phone-dark.png and
# what the browser makes of the page, NAME-dom.html, into the folder. The status is 1 where the page asks for more than itself, runs a script or
# brings a word onto the browser's console (tools/page_look.py), isn't what tools/page_check.py wants, or has a text wider than its box.
set -u
top=$(cd "$(dirname "${BASH_SOURCE[0]}")/.." && pwd)
page=${1:?a URL or a file} folder=${2:?a folder} name=${3:?a name}
[ ! -f "$page" ] || page=file://$(realpath "$page")
mkdir -p "$folder"
status=0
python3 "$top/tools/page_look.py" "$page" "$folder" "$name" || status=1
for look in page_check page_widths; do
    python3 "$top/tools/$look.py" "$folder/$name-dom.html" || status=1
done
exit $status
