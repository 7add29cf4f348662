"""How pages are laid out, measured in Chromium: at 1280 and 400 pixels, light and dark, nothing is wider than the page,
no word is broken in a table, and all text can be read."""

import html
import json
import re
import shutil
import subprocess
import tempfile
import unittest
from typing import Any

from pfplan.common.repository import TOP
from pfplan.tests.packets import Logged, log_capture
from pfplan.tests.support import FolderCase, pfplan
from pfplan.traces.records import read_record

CHROMIUM = next((it for it in ("chromium", "chromium-browser", "google-chrome") if shutil.which(it)), "")
# Measures each frame: what is wider than the page, words in cells that stand on two lines, and text that is too like
# its ground (WCAG 2.1, 1.4.3).
SCRIPT = """
const light = (text) => {
  const [r, g, b] = text.match(/[0-9.]+/g).map((it) => it / 255).map(
    (it) => it <= 0.04045 ? it / 12.92 : ((it + 0.055) / 1.055) ** 2.4);
  return 0.2126 * r + 0.7152 * g + 0.0722 * b;
};
const measured = (frame) => {
  const page = frame.contentDocument, wide = [], broken = [], faint = [];
  const width = page.documentElement.clientWidth, style = (it) => frame.contentWindow.getComputedStyle(it);
  const ground = light(style(page.body).backgroundColor);
  for (const it of page.body.querySelectorAll("*")) {
    const box = it.getBoundingClientRect();
    if (box.right > width + 1 || box.left < -1)
      wide.push(`${it.tagName} ${Math.round(box.right)} ${it.textContent.slice(0, 60)}`);
    if (it.className == "wide" && it.scrollWidth > it.clientWidth + 1)
      wide.push(`table ${it.scrollWidth} in ${it.clientWidth} ${it.textContent.slice(0, 60)}`);
    if (it.closest("svg") || ![...it.childNodes].some((one) => one.nodeType == 3 && one.data.trim())) continue;
    const ink = light(style(it).color), [low, high] = [Math.min(ink, ground), Math.max(ink, ground)];
    if ((high + 0.05) / (low + 0.05) < 4.5) faint.push(`${it.tagName} ${it.className} ${it.textContent.slice(0, 60)}`);
    if (!it.closest("td, th")) continue;
    for (const one of [...it.childNodes].filter((one) => one.nodeType == 3)) {
      for (const word of one.data.matchAll(/[A-Za-z0-9_.,:@]+/g)) {
        const range = page.createRange();
        range.setStart(one, word.index);
        range.setEnd(one, word.index + word[0].length);
        const lines = new Set([...range.getClientRects()].map((it) => Math.round(it.top)));
        if (lines.size > 1 && word[0].length <= 40) broken.push(word[0]);
      }
    }
  }
  return { wide, broken, faint, height: page.documentElement.scrollHeight };
};
onload = () => {
  const found = {};
  for (const it of document.querySelectorAll("iframe")) found[it.id] = measured(it);
  document.body.textContent = "measured " + JSON.stringify(found) + " end";
};
"""
RULES = """set limit states {states}
table <a-table-of-flooders-with-a-name> persist
block in log (all) quick from <a-table-of-flooders-with-a-name>
block in log (all) all
pass in log (all) on em0 proto tcp from any to 2001:db8:1234:5678:9abc:def0:1234:5678 port 80 keep state
pass in log (all) on em0 proto tcp to 192.0.2.1 port 80 keep state (max-src-conn-rate 3/10, \\
    overload <a-table-of-flooders-with-a-name> flush)
match in on em0 proto tcp to port 443 nat-to 192.0.2.99
"""
USERS = ("--users", "198.51.100.0/24")
WRONG = ("wide", "broken", "faint")
BEGIN = 1_700_000_000


def records() -> list[str]:
    """Connections since 1970: of users, and of a source that floods."""
    found: list[str] = []
    for second in range(BEGIN, BEGIN + 60):
        for number in range(4):
            source = f"198.51.100.{(second + number) % 40}" if number < 2 else "203.0.113.200"
            ends = f"{source},{1024 + second % 60 * 4 + number},192.0.2.1,80"
            back = f"192.0.2.1,80,{source},{1024 + second % 60 * 4 + number}"
            packets = f"in,em0,tcp,{ends},S", f"out,em0,tcp,{back},SA", f"in,em0,tcp,{ends},A"
            found += [f"{second},{it}" for it in packets]
    return found


@unittest.skipUnless(CHROMIUM, "Chromium is not installed, so nobody measures the pages (Debian package chromium)")
class Layout(FolderCase):
    def pages(self) -> dict[str, str]:
        """A page of each command, of a trace since 1970 and of names that are long."""
        trace = self.trace(records(), "a-capture-of-the-outer-interface-at-noon.csv")
        confs = [
            self.write(f"pf.conf-with-{states}-states-and-a-long-name.conf", RULES.replace("{states}", str(states)))
            for states in (40, 90, 4000)
        ]
        log = self.folder / "pflog"
        log.write_bytes(log_capture([(read_record(it), Logged(0, 2)) for it in records()[:60]]))
        scenario = TOP / "examples" / "scenarios" / "ssh.toml"
        into, size = self.folder / "answer", ("size", confs[1], trace, *USERS, "--grid", 4, "--runs", 20)
        for words in (
            ("run", confs[1], trace, *USERS, "--into", into, "--margins"),
            ("compare", *confs, trace, *USERS, "--page", self.folder / "compare.html"),
            (*size, "--vary", "states=20..400", "--page", self.folder / "size.html"),
            (*size, "--vary", "states=20..400", "--vary", "tcp.first=5..120", "--page", self.folder / "map.html"),
            ("margins", confs[0], trace, *USERS, "--page", self.folder / "margins.html"),
            ("agree", confs[0], log, "--into", self.folder / "agree"),
            ("play", *confs, scenario, "--into", self.folder / "play"),
        ):
            done = pfplan(*words)
            self.assertEqual(done.status, 0, done.err)
        found = {it.stem: it for it in self.folder.glob("*.html")}
        found |= {it: self.folder / it / "report.html" for it in ("answer", "agree", "play")}
        return {name: it.read_text("utf-8") for name, it in found.items()}

    def measured(self, pages: dict[str, str]) -> dict[str, Any]:
        """What Chromium measures of each page, at each width and in each scheme of colours."""
        frames = "".join(
            f'<iframe id="{name} {width} {scheme}" srcdoc="{html.escape(page)}" '
            f'style="width: {width}px; height: 800px; border: 0; color-scheme: {scheme}"></iframe>'
            for name, page in pages.items()
            for width in (1280, 400)
            for scheme in ("light", "dark")
        )
        place = self.write("all.html", "")
        place.write_text(f"<!doctype html><meta charset=utf-8><script>{SCRIPT}</script><body>{frames}</body>", "utf-8")
        with tempfile.TemporaryDirectory(prefix="pfplan-test-", ignore_cleanup_errors=True) as home:
            words = [CHROMIUM, "--headless", "--no-sandbox", "--disable-gpu", f"--user-data-dir={home}", "--dump-dom"]
            try:
                called = [*words, place.as_uri()]
                done = subprocess.run(called, capture_output=True, text=True, check=False, timeout=300)
            except subprocess.TimeoutExpired:
                self.skipTest("Chromium does not end here, so nobody measures the pages")
        if done.returncode:
            self.skipTest(f"Chromium does not run here, so nobody measures the pages: {done.stderr[-200:]}")
        found = re.search("<body>measured (.*) end</body>", done.stdout)
        assert found, (done.stdout[-500:], done.stderr[-2000:])
        read: dict[str, Any] = json.loads(html.unescape(found[1]))
        return read

    def test_pages(self) -> None:
        found = self.measured(self.pages())
        self.assertEqual(len(found), 7 * 4)
        for name, it in found.items():
            with self.subTest(name):
                self.assertGreater(it["height"], 300)
                self.assertEqual({key: it[key][:8] for key in WRONG}, {key: [] for key in WRONG})


if __name__ == "__main__":
    unittest.main()
