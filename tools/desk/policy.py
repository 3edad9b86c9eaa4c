#!/usr/bin/env python3
"""Holds the policy in the page's head to the page's script and style, whose digests it names.

    tools/desk/policy.py [--write]     # --write puts the digests in
"""
import base64
import hashlib
import os
import re
import sys

TOP = os.path.dirname(os.path.dirname(os.path.dirname(os.path.abspath(__file__))))
FOLDER = os.path.join(TOP, "bindings", "command", "src", "page")


def digest(name):
    with open(os.path.join(FOLDER, name), "rb") as file:
        return "sha256-" + base64.b64encode(hashlib.sha256(file.read()).digest()).decode()


def main():
    if sys.argv[1:] not in ([], ["--write"]):
        sys.exit(__doc__)
    path = os.path.join(FOLDER, "page.html")
    with open(path, encoding="utf-8") as file:
        page = file.read()
    due = re.sub(r"(script-src) '[^']*'", rf"\1 '{digest('script.js')}'", page)
    due = re.sub(r"(style-src) '[^']*'", rf"\1 '{digest('style.css')}'", due)
    if sys.argv[1:]:
        with open(path, "w", encoding="utf-8") as file:
            file.write(due)
    elif page != due:
        sys.exit("the policy of page.html names other digests: tools/desk/policy.py --write")
    print("the policy names the digests of script and style")


main()
