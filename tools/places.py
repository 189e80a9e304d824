#!/usr/bin/env python3
"""Counts, in crates/*/src, the places where an older form may stand: python3 tools/places.py [POINT] lists them too.

Each point has patterns over single lines or over whole files. A place that is found may well be right as it is:
docs/DESIGN-PASS.md says of each kind what was changed and what stays, and why.
"""
import collections
import pathlib
import re
import sys

ROOT = pathlib.Path(__file__).resolve().parent.parent
FILES = sorted(ROOT.glob("crates/*/src/**/*.rt"))
NUMERIC = r"(?:u8|u16|u32|u64|u128|usize)"

LINE_PATTERNS = {
    "1": [
        ("a variant Refused, or a flag for a refusal", r"^\s+Refused\(|&mut self[^)]*\) -> bool$"),
        ("a number for a kind, a class or none", r"kind\(\) [!=]= |\(kind [!=]= \w+\)|^const (?:MOVE|JUMP|END)\b|kind: u8\b|map: u8\b|class: u8\b|class_of\(.*-> u8|NO_WAY|\b255\b|Answer::Refused\("),
        ("an answer that is kept and asked by hand in place of ?", r"if let Ok\(\(\)\) = |let Ok\(\(\)\) = .* else|let Some\(\w+\) = [^;]* else \{$"),
        ("a match that a method of Option or Result does", r"^\s+None => (?:None|true|false|v|0|255|NO_WAY|NumberSet::new\(\)|\{\}|Ok\(\(\)\)),|^\s+Err\(_\) => (?:None|\{\}),"),
        ("a law on a function that answers a number for nothing", r"^pub fn \w+\(\) -> u8$"),
    ],
    "3": [
        ("a for over a range of numbers", r"^\s*(?:'\w+: )?for \w+ in .*\.\."),
        ("a while", r"^\s*while "),
    ],
    "4": [
        ("a method that turns a refusal into its number or place", r"fn (?:number|place)\(self\) -> "),
        ("a conversion or a comparison written as a function", r"fn (?:to_row|copied|is_chosen|is_number|is_below|code_of|without_source)\b|fn \w*rule\w*\(.*-> &'static str"),
        ("a cast that widens or narrows", r" as (?:u8|u16|u32|u64|u128|usize)\b"),
    ],
    "6": [
        ("a fixed buffer", r"^\s+(?:pub |pub\(crate\) )?\w+: \[[^\]]*; \w+\],$"),
        ("a length, a top or a count beside a buffer", r"^\s+(?:pub |pub\(crate\) )?(?:len|top|noted|many|used|rows|last|end): usize,$"),
        ("a buffer lent for an answer, its length answered", r"^(?:pub )?fn .*&mut \[.*-> (?:Option<usize>|io::Result<usize>|usize)"),
    ],
    "7": [
        ("an enum that says which step to run", r"\bRule::|enum Rule|match call \{"),
        ("a function pointer", r": fn\("),
    ],
}


def lines():
    for path in FILES:
        for number, line in enumerate(path.read_text().split("\n"), 1):
            if not line.lstrip().startswith("//"):
                yield path.relative_to(ROOT), number, line


def enums_without_derives():
    for path in FILES:
        text = path.read_text()
        for found in re.finditer(r"(#\[derive\(([^)]*)\)\]\n)?pub (?:enum|struct) (\w+)", text):
            derives = found.group(2) or ""
            if "PartialEq" not in derives and re.search(r"pub enum", found.group(0)):
                yield path.relative_to(ROOT), text.count("\n", 0, found.start()) + 1, found.group(3)


def functions():
    head = re.compile(r"^( *)(?:pub(?:\(crate\))? )?fn (\w+)(?:<[^({]*>)?\((.*?)\)(?: -> [^\n]*?)?\n(.*?)^\1\{", re.S | re.M)
    for path in FILES:
        text = path.read_text()
        for found in head.finditer(text):
            yield path.relative_to(ROOT), found.group(2), found.group(3), found.group(4)


def repeated_facts():
    by_crate = collections.defaultdict(lambda: collections.defaultdict(set))
    for path, name, _, clauses in functions():
        for clause in re.findall(r"(?:requires|ensures)(?: \w+)? \{ (.*) \}", clauses):
            for part in re.split(r" × ", clause):
                part = part.strip("() ")
                if "result" not in part and len(part) > 12:
                    by_crate[path.parts[1]][part].add(f"{path.name}:{name}")
    for crate, facts in sorted(by_crate.items()):
        for fact, where in sorted(facts.items()):
            if len(where) >= 3:
                yield crate, len(where), fact


def travelling_parameters():
    by_crate = collections.defaultdict(lambda: collections.defaultdict(set))
    for path, name, params, _ in functions():
        parts = [re.sub(r"\s+", " ", p).strip() for p in params.replace("\n", " ").split(", ")]
        parts = [re.sub(r"'\w+ ", "", p).strip(" ,") for p in parts if ":" in p]
        for i in range(len(parts)):
            for j in range(i + 1, len(parts)):
                by_crate[path.parts[1]][(parts[i], parts[j])].add(f"{path}:{name}")
    for crate, pairs in sorted(by_crate.items()):
        for pair, where in sorted(pairs.items()):
            if len(where) >= 3:
                yield crate, len(where), " and ".join(pair)


def main():
    wanted = sys.argv[1:]
    for point in ["1", "3", "4", "6", "7"]:
        total = 0
        for what, pattern in LINE_PATTERNS[point]:
            found = [(p, n, l) for p, n, l in lines() if re.search(pattern, l)]
            total += len(found)
            print(f"point {point}: {len(found):4} {what}")
            if point in wanted:
                for path, number, line in found:
                    print(f"    {path}:{number}: {line.strip()}")
        if point == "4":
            found = list(enums_without_derives())
            total += len(found)
            print(f"point 4: {len(found):4} a public enum that cannot be compared")
            if point in wanted:
                for path, number, name in found:
                    print(f"    {path}:{number}: {name}")
        print(f"point {point}: {total:4} in all")
    for what, found in [("a fact in the contracts of three functions or more of a crate", list(repeated_facts())), ("a pair of parameters that three functions or more of a crate take", list(travelling_parameters()))]:
        print(f"point 5: {len(found):4} {what}")
        if "5" in wanted:
            for crate, many, text in found:
                print(f"    {crate}: {many} times: {text}")
    proofs = sorted(ROOT.glob("crates/*/proofs/**/*.antt"))
    print(f"point 8: {sum(len(p.read_text().splitlines()) for p in proofs):4} lines in {len(proofs)} files of proofs")


main()
