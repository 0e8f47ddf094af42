#!/usr/bin/env python3
"""Opens the page of a small dump in headless Chromium, zooms, moves, searches and points at every row of it.

usage: checks/python/page.py [SCREENSHOT.png], at the top of the repository. Without Chromium it says that it was
skipped. A screenshot is written if a file is named. """
import json
import os
import re
import shutil
import subprocess
import sys
import tempfile

sys.path[:0] = [os.path.abspath("python"), os.path.abspath("checks/python")]

from drawn import DATA, timeline

from arena.trace.axis import Axis
from arena.trace.html import page

BROWSERS = ("chromium", "chromium-browser", "google-chrome", "chrome")
PATIENCE = 240

# Takes the steps of a reader, and puts what is then seen into the document.
STEPS = """
const seen = {};
const get = id => document.getElementById(id);
const range = () => get("range").textContent;
const find = text => {
  get("find").value = text;
  get("find").dispatchEvent(new Event("input", {bubbles: true}));
  return get("found").textContent;
};
const at = (type, x, y, more) => {
  const box = get("canvas").getBoundingClientRect();
  get("canvas").dispatchEvent(new (type === "wheel" ? WheelEvent : PointerEvent)(
    type, {clientX: box.left + x, clientY: box.top + y, bubbles: true, cancelable: true, pointerId: 1, ...more}));
};
const press = key => document.dispatchEvent(new KeyboardEvent("keydown", {key, bubbles: true, cancelable: true}));
get("canvas").setPointerCapture = () => {};
seen.all = range();
get("in").click();
seen.in = range();
get("out").click();
seen.out = range();
at("wheel", 96, 200, {deltaY: -400});
seen.wheel = range();
press("ArrowRight");
seen.right = range();
press("0");
seen.zero = range();
at("pointermove", 400, 100, {});
seen.row = find("row 21");
seen.rowRange = range();
seen.job = find("job 4");
seen.next = (get("controls").dispatchEvent(new Event("submit", {cancelable: true})), get("found").textContent);
seen.procedure = find("p0");
seen.nothing = find("row 999");
seen.nobody = find("dance");
find("");
press("+");
at("pointerdown", 700, 100, {});
at("pointermove", 2000, 100, {});
at("pointerup", 2000, 100, {});
seen.dragged = range();
press("0");
seen.pointed = [];
const box = get("canvas").getBoundingClientRect();
for (let y = 6; y < box.height; y += 5) {
  for (let x = 90; x < box.width; x += 2) {
    at("pointermove", x, y, {});
    const text = get("tip").hidden ? "" : get("tip").textContent;
    if (text && !seen.pointed.includes(text)) seen.pointed.push(text);
  }
}
at("pointerleave", 0, 0, {});
seen.left = get("tip").hidden;
seen.legend = [...get("legend").children].map(it => it.textContent);
get("legend").children[1].click();
seen.clicked = get("found").textContent;
const pen = get("canvas").getContext("2d"), colours = new Set();
press("0");
const pixels = pen.getImageData(0, 0, get("canvas").width, get("canvas").height).data;
for (let i = 0; i < pixels.length; i += 4) {
  colours.add("#" + [0, 1, 2].map(j => pixels[i + j].toString(16).padStart(2, "0")).join(""));
}
seen.colours = ["#3b6ea8", "#d9822b", "#2f8f5b", "#b04a8f"].filter(it => colours.has(it));
const result = document.createElement("pre");
result.id = "seen";
result.textContent = JSON.stringify(seen);
document.body.append(result);
"""
FAULTS = '<script>window.faults = []; window.onerror = text => document.title += " FAULT " + text;</script>'


def opened(browser, path, *words):
    """The document after its scripts have run."""
    with tempfile.TemporaryDirectory() as folder:
        done = subprocess.run([browser, "--headless", "--no-sandbox", "--disable-gpu", f"--user-data-dir={folder}",
                               "--window-size=1400,900",
                               *words, f"file://{path}"], capture_output=True, text=True, timeout=PATIENCE)
    assert done.returncode == 0, done.stderr
    return done.stdout


def what_is_seen(browser, text):
    """What the steps see on a page."""
    with tempfile.TemporaryDirectory() as folder:
        path = os.path.join(folder, "page.html")
        with open(path, "w") as it:
            it.write(text.replace("<style>", FAULTS + "<style>").replace("</body>",
                                                                         f'<script '
                                                                         f'type="module">{STEPS}</script></body>'))
        document = opened(browser, path, "--dump-dom")
    assert "FAULT" not in re.search("<title>(.*?)</title>", document)[1], document[:300]
    found = re.search(r'<pre id="seen">(.*?)</pre>', document, re.S)
    assert found, document[-2000:]
    return json.loads(found[1].replace("&lt;", "<").replace("&gt;", ">").replace("&amp;", "&"))


def numbers(text):
    """The two ends of what is shown."""
    begin, end, whole = re.fullmatch(r"([\d,]+) to ([\d,]+) of ([\d,]+)", text).groups()
    return [int(it.replace(",", "")) for it in (begin, end, whole)]


def page_is_used(browser, shown, text):
    """Compares what is seen with the timeline that was drawn."""
    seen, end = what_is_seen(browser, text), shown.end
    assert numbers(seen["all"]) == numbers(seen["zero"]) == numbers(seen["out"]) == [0, end, end]
    assert numbers(seen["in"]) == [end // 4, -(-3 * end // 4), end]
    # The wheel zooms by e where it points, which is the left end.
    assert numbers(seen["wheel"])[0] == 0 and numbers(seen["wheel"])[1] == int(end / 2.718281828) + 1
    assert numbers(seen["right"])[0] == int(0.2 * end / 2.718281828)
    row = next(bar for bar in shown.bars if bar.row.number == 21)
    assert seen["row"] == "1 of 1: row 21: root p0, faulted", seen["row"]
    begin, last, _ = numbers(seen["rowRange"])
    assert begin <= row.begin and row.end <= last and last - begin <= 3 * (row.end - row.begin) + 2
    of_job = sum(bar.row.job.number == 4 for bar in shown.bars)
    assert seen["job"] == f"{of_job} of job 4" and seen["next"].startswith(f"1 of {of_job}: row "), seen["job"]
    assert seen["procedure"].startswith(f"1 of {len(shown.bars)}: row ")
    assert seen["nothing"] == seen["nobody"] == "nothing found" and seen["left"] is True
    assert numbers(seen["dragged"])[0] == 0 and numbers(seen["dragged"])[1] < end
    assert seen["clicked"] == "1 of job 2" and len(seen["legend"]) == len(shown.jobs)
    assert len(seen["colours"]) == len(shown.jobs), seen["colours"]
    every_row_is_told(seen["pointed"], shown)


def every_row_is_told(texts, shown):
    """Each row, each of its runs, and each request must be told where it is pointed at."""
    rows = {int(number) for text in texts for number in re.findall(r"^row (\d+):", text)}
    assert rows == {bar.row.number for bar in shown.bars}, rows
    entries = {int(number) for text in texts for number in re.findall(r"^entry (\d+): \d+ instructions", text, re.M)}
    missing = {run.entry for bar in shown.bars for run in bar.runs} - entries
    assert not missing, missing
    assert {mark.entry for mark in shown.marks} == {int(number) for text in texts
                                                    for number in re.findall(r"^entry (\d+): [a-z]+ ?\d*$", text)}
    fault = next(text for text in texts if text.startswith("row 21:"))
    assert "job 3: fault 1, division by zero" in fault and "2 instructions on slot" in fault, fault


def main(screenshot=None):
    browser = next(filter(None, map(shutil.which, BROWSERS)), None)
    if browser is None:
        print(f"skipped: none of {', '.join(BROWSERS)} is installed, so the page was not opened")
        return
    with open(os.path.join(DATA, "four_workers.jsonl")) as it:
        lines = it.readlines()
    shown = timeline(lines, axis=Axis.ENTRIES)
    page_is_used(browser, shown, page(shown))
    if screenshot:
        with tempfile.TemporaryDirectory() as folder:
            path = os.path.join(folder, "page.html")
            with open(path, "w") as it:
                it.write(page(shown))
            opened(browser, path, f"--screenshot={os.path.abspath(screenshot)}")
    print(f"the page was opened by {os.path.basename(browser)}, zoomed, searched, and told of {len(shown.bars)} rows")


main(*sys.argv[1:])
