#!/usr/bin/env python3
"""Lists the places of each point of docs/DESIGN-PASS.md in the sources of a commit.

    tools/places.py [COMMIT] [POINT]

Prints, for each point, the patterns that are searched for and how many lines have them; with a point as
the second argument, the lines too. Without a commit the working tree is read. The page says which of the
lines are places.
"""
import collections
import re
import subprocess
import sys

PATTERNS = {
    1: [
        ("own enums", r"^\s*(pub(\(crate\))? )?enum \w"),
        ("answers and fields that are flags", r"(-> |Result<|\w: )bool\b"),
        ("a pair that holds what became of a call", r"-> (\w+<)?\((usize|Saved|u32), "),
        ("numbers for a kind, a way or a refusal", r"\b(kind: u8|way: u32|way == 0|\.number\(\)|fn number)"),
        ("1 and 0 for joined and not", r"(note\(.*, [01]\)|content\(.*\) == 1)"),
    ],
    2: [
        ("methods of each class that read a constant", r"fn (key_count|setting_rows|has_name|most_joined|answer_bytes|has_kind|takes|is_declared)\b"),
        ("kinds from numbers and back", r"fn (kind|from_kind)\("),
        ("two disks", r"struct (Disk|LentDisk)|impl.* Device for (Disk|LentDisk)"),
        ("two stores, and the loops below them", r"(struct Store|enum StoreError|fn (write_block|block_is|finds_blocks|write_blocks|put_blocks|save|verify|append)\b)"),
        ("an exchange made into a length", r"fn (performed|heard|collect|request)\b.*(answer|driver): "),
        ("two programs", r"(fn (planned|audit|report_refusal|report_tally|reason_of|report_arrivals|report_end)|const TONE|struct (Tally|Failure))"),
        ("the same constant in several crates", r"const \w+: (usize|u32) = (512|1514|16|24);"),
        ("three arms of a counted call", r"match self\.plan\.next\(\)"),
    ],
    3: [
        ("a count from 0 as an index", r"for \w+ in 0\.\."),
        ("while", r"\bwhile\b"),
        ("enumerate", r"\.enumerate\(\)"),
        ("a sum or a count by hand", r"^\s*\w[\w.]* (\+= |= \w+\.saturating_add)"),
    ],
    4: [
        ("copies alone derived", r"derive\(Clone, Copy\)\]"),
        ("conversions by hand", r"fn (kind|from_kind|number|low)\b"),
        ("casts", r" as (u8|u16|u32|u64|usize|i32)\b"),
        ("printing by hand", r"fn (reason_of|report_refusal|report_silence|report_event|report_stored)\b"),
        ("equality and order by hand", r"impl.*\b(PartialEq|PartialOrd|Ord|Hash|Clone) for"),
    ],
    5: [
        ("level, kind, address and payload as parameters", r"^\s*level: u32,$"),
        ("tag, kind, address and payload as parameters", r"tag: u32, kind: u8, address: u32"),
        ("a bound on a frame, a block or a level", r"requires.*(1514|512|level ≤ 256)"),
        ("what a value keeps, by a word of specs/", r"ensures.*\b(kept|items_in|memory_of) (self|result)"),
    ],
    6: [
        ("arrays in a struct", r"^\s*(pub(\(crate\))? )?\w+: \[\w+; \w+\]"),
        ("a count beside", r"^\s*(pub(\(crate\))? )?(count|used|size|len): (usize|u32)"),
        ("tables with a count", r"const (SETTING_COUNT|SETTINGS)"),
    ],
    7: [
        ("a switch on what to do with a call", r"match self\.plan\.next\(\)"),
        ("function pointers and dyn", r"\bfn\(|\bdyn\b"),
    ],
}


def lines_of(commit):
    if commit:
        names = subprocess.run(["git", "ls-tree", "-r", "--name-only", commit], capture_output=True, text=True, check=True).stdout
    else:
        names = subprocess.run(["git", "ls-files"], capture_output=True, text=True, check=True).stdout
    for name in names.splitlines():
        if re.match(r"crates/\w+/src/.*\.rt$", name):
            if commit:
                text = subprocess.run(["git", "show", f"{commit}:{name}"], capture_output=True, text=True, check=True).stdout
            else:
                text = open(name, encoding="utf-8").read()
            for number, line in enumerate(text.splitlines(), 1):
                if not line.strip().startswith("//"):
                    yield name[len("crates/"):], number, line


def main():
    commit = sys.argv[1] if len(sys.argv) > 1 and sys.argv[1] != "-" else ""
    point = int(sys.argv[2]) if len(sys.argv) > 2 else 0
    all_lines = list(lines_of(commit))
    for number, patterns in PATTERNS.items():
        if point and number != point:
            continue
        print(f"point {number}")
        for what, pattern in patterns:
            found = [(name, n, line) for name, n, line in all_lines if re.search(pattern, line)]
            crates = collections.Counter(name.split("/")[0] for name, _, _ in found)
            where = ", ".join(f"{crate} {count}" for crate, count in crates.items())
            print(f"  {len(found):3}  {what}: {where}")
            if point:
                for name, n, line in found:
                    print(f"         {name}:{n}: {line.strip()[:110]}")


main()
