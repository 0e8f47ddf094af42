#!/usr/bin/env python3
"""Looks at the page of `arena metrics`: it is safe, and keeps itself up to date, for which it is opened in headless Chromium, if
that is installed.

usage: checks/python/metrics_page.py, at the top of the repository. It needs no built program.
"""
import base64
import hashlib
import os
import re
import shutil
import subprocess
import sys
import tempfile

sys.path.insert(0, os.path.abspath("python"))

from fake_host import Folder, term
from metrics_served import asked, served
from serving import PATIENCE

BROWSERS = ("chromium", "chromium-browser", "google-chrome", "chrome")


def page_is_safe():
    """The page names nothing elsewhere, runs its own script alone, and shows names as text."""
    with Folder() as folder, served(folder) as server:
        folder.write(folder.status(term(1, '<b>"&'), term(1, "@SCRIPT@")))
        _, head, text = asked(server, "/")
        part = asked(server, "/status")[2]
    assert '<td class="left">&lt;b&gt;&quot;&amp;</td>' in part and "<b>" not in text and part in text, text
    assert text.count("@SCRIPT@") == 1 and not re.search(r"(src|href|url|import)\s*[=(]|//[a-z]", text), text
    policy = head["Content-Security-Policy"]
    assert policy.startswith("default-src 'none'; connect-src 'self'; ") and "unsafe" not in policy, policy
    for tag in ("script", "style"):
        inside = re.findall(f"<{tag}>(.*?)</{tag}>", text, re.S)
        digest = base64.b64encode(hashlib.sha256(inside[0].encode()).digest()).decode()
        assert len(inside) == text.count(f"<{tag}") == 1 and f"{tag}-src 'sha256-{digest}'" in policy, tag


def page_keeps_up():
    """The page shows the status that was there when it was opened, and then by itself the one that came after."""
    browser = next(filter(None, map(shutil.which, BROWSERS)), None)
    if browser is None:
        return f"skipped: none of {', '.join(BROWSERS)} is installed, so the page was not opened"
    with Folder() as folder, served(folder) as server:
        first, asked_for = server.watcher.page, []

        def page():
            """The page, after which the status is another one."""
            answer = first()
            asked_for.append(answer.text)
            folder.write(folder.status(term(8, "later", entries=4321)))
            return answer

        server.watcher.paths["/"] = page
        folder.write(folder.status(term(7, "sooner", entries=1234)))
        document = opened(browser, server.url)
    assert len(asked_for) == 1 and "1,234" in asked_for[0], asked_for
    assert "<td class=\"left\">later</td>" in document and "4,321" in document and "1,234" not in document, document
    return f"the page was opened by {os.path.basename(browser)}, and put the next status into itself"


def opened(browser, url):
    """The document of a page after the time in which it asks twice."""
    with tempfile.TemporaryDirectory() as folder:
        done = subprocess.run([browser, "--headless", "--no-sandbox", "--disable-gpu", f"--user-data-dir={folder}",
                               "--virtual-time-budget=5000", "--dump-dom", url], capture_output=True, text=True,
                              timeout=PATIENCE)
    assert done.returncode == 0, done.stderr
    return done.stdout


def main():
    page_is_safe()
    print(page_keeps_up())
    print("the page of the metrics is safe")


main()
