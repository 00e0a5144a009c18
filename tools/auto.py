#!/usr/bin/env python3
"""Writes `#![tactic(auto)]` near the head of each crate's root file, below its first comment. usage: python3 tools/auto.py"""

import os


def main():
    for crate in sorted(os.listdir("crates")):
        for name in ("lib.rt", "main.rt"):
            path = os.path.join("crates", crate, "src", name)
            if not os.path.exists(path):
                continue
            with open(path, encoding="utf-8") as f:
                lines = f.read().split("\n")
            if any(line.startswith("#![tactic") for line in lines):
                continue
            at = 0
            while at < len(lines) and lines[at].startswith("//"):
                at += 1
            lines[at:at] = ["#![tactic(auto)]", ""] if lines[at] else ["", "#![tactic(auto)]"] if at else ["#![tactic(auto)]"]
            with open(path, "w", encoding="utf-8") as f:
                f.write("\n".join(lines))


main()
