#!/usr/bin/env python3
"""Says which elements of a status page have more in them than their boxes are wide, on a wide screen and on a phone, as Debian's chromium
lays it out: page_widths.py FILE.. The page lies in a frame of that width, since the browser's own window can't be as narrow."""
import html
import re
import subprocess
import sys
import tempfile

WIDTHS = (1280, 390)
LOOK = """f.onload = () => {
  const wide = [];
  for (const e of f.contentDocument.querySelectorAll('body, body *')) {
    if (!e.closest('svg') && e.clientWidth && e.scrollWidth > e.clientWidth + 1) {
      wide.push(e.tagName.toLowerCase() + '.' + e.className + ' ' + e.scrollWidth + ' of ' + e.clientWidth);
    }
  }
  document.title = f.contentWindow.innerWidth + ': ' + wide.join('; ');
}"""


def too_wide(text, width):
    text = text.replace('http-equiv="refresh"', 'http-equiv="x-refresh"')
    frame = f'<iframe id="f" style="width:{width}px;height:3000px;border:0" srcdoc="{html.escape(text)}"></iframe>'
    with tempfile.NamedTemporaryFile("w", suffix=".html", encoding="utf-8") as page:
        page.write(f"<!DOCTYPE html><meta charset=utf-8>{frame}<script>{LOOK}</script>")
        page.flush()
        words = ["chromium", "--headless", "--no-sandbox", "--disable-gpu", "--window-size=1400,3200", "--virtual-time-budget=3000", "--dump-dom"]
        ran = subprocess.run([*words, f"file://{page.name}"], stdout=subprocess.PIPE, stderr=subprocess.DEVNULL, text=True, timeout=120)
    found = re.search(rf"<title>{width}: ([^<]*)</title>", ran.stdout)
    return found[1] if found else "it wasn't laid out"


if __name__ == "__main__":
    bad = 0
    for name in sys.argv[1:]:
        text = open(name, encoding="utf-8").read()
        for width in WIDTHS:
            if wide := too_wide(text, width):
                bad += 1
                print(f"{name} at {width}: {html.unescape(wide)}")
    print(f"{len(sys.argv) - 1} pages at {len(WIDTHS)} widths, {bad} faults")
    sys.exit(bad != 0)
