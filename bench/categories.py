"""Compares what the predicates rest on with Python, at every code point: reads the rows of general categories
that the toolchain's crate ucd_category has as data, tells from them the answers of is_alpha, is_decimal,
is_alnum and is_space for a text of that one code point, and lists where Python's unicodedata and str answer
otherwise. The program is not run. Both Unicode versions are named: where they differ, a code point that the
older one does not assign yet is counted apart. Ends with 1 where a predicate still differs.

    python3 bench/categories.py [FOLDER of ucd_category]"""
import os
import re
import subprocess
import sys
import unicodedata

SHORT = {
    "UppercaseLetter": "Lu", "LowercaseLetter": "Ll", "TitlecaseLetter": "Lt", "ModifierLetter": "Lm",
    "OtherLetter": "Lo", "NonspacingMark": "Mn", "SpacingMark": "Mc", "EnclosingMark": "Me",
    "DecimalNumber": "Nd", "LetterNumber": "Nl", "OtherNumber": "No", "ConnectorPunctuation": "Pc",
    "DashPunctuation": "Pd", "OpenPunctuation": "Ps", "ClosePunctuation": "Pe", "InitialPunctuation": "Pi",
    "FinalPunctuation": "Pf", "OtherPunctuation": "Po", "MathSymbol": "Sm", "CurrencySymbol": "Sc",
    "ModifierSymbol": "Sk", "OtherSymbol": "So", "SpaceSeparator": "Zs", "LineSeparator": "Zl",
    "ParagraphSeparator": "Zp", "Control": "Cc", "Format": "Cf", "Surrogate": "Cs", "PrivateUse": "Co",
    "Unassigned": "Cn",
}
LETTERS = {"Lu", "Ll", "Lt", "Lm", "Lo"}
NUMBERS = {"Nd", "Nl", "No"}
SPACES = {
    *range(0x9, 0xE), *range(0x1C, 0x21), 0x85, 0xA0, 0x1680, *range(0x2000, 0x200B), 0x2028, 0x2029, 0x202F,
    0x205F, 0x3000,
}
PREDICATES = {
    "is_alpha": (lambda point, category: category in LETTERS, str.isalpha),
    "is_decimal": (lambda point, category: category == "Nd", str.isdecimal),
    "is_alnum": (lambda point, category: category in LETTERS | NUMBERS, str.isalnum),
    "is_space": (lambda point, category: point in SPACES, str.isspace),
}


def folder():
    """Where the toolchain keeps ucd_category: beside the page that `rt doc` names."""
    if len(sys.argv) > 1:
        return sys.argv[1]
    page = subprocess.run(["rt", "doc"], capture_output=True, text=True, check=True).stdout.strip()
    return os.path.join(os.path.dirname(page), "rattle", "ucd_category")


def rows(path):
    """The category of each code point by the rows, which the proofs cite, and the Unicode version."""
    with open(os.path.join(path, "specs", "GeneralCategoryRows.antt"), encoding="utf-8") as file:
        text = file.read()
    version = re.search(r"Unicode (\d+\.\d+\.\d+)", text).group(1)
    found = [None] * 0x110000
    for first, last, name in re.findall(r"\(0x([0-9A-F]+), 0x([0-9A-F]+), (\w+)\)", text):
        for point in range(int(first, 16), int(last, 16) + 1):
            # the first row that holds a code point decides
            if found[point] is None:
                found[point] = SHORT[name]
    return [category or "Cn" for category in found], version


def ranges(points):
    """Code points as ranges, for printing."""
    parts = []
    for point in points:
        if parts and parts[-1][1] == point - 1:
            parts[-1][1] = point
        else:
            parts.append([point, point])
    return ", ".join(f"{a:04X}" if a == b else f"{a:04X}-{b:04X}" for a, b in parts)


def report(name, wanted, found, categories):
    """Prints where two answers differ, those apart that Python's Unicode does not assign. How many are left."""
    differ = [point for point in range(0x110000) if wanted(point) != found(point)]
    new = [point for point in differ if unicodedata.category(chr(point)) == "Cn"]
    left = [point for point in differ if unicodedata.category(chr(point)) != "Cn"]
    print(f"{name}: {len(differ)} differ, {len(new)} of them not assigned by Python's Unicode, {len(left)} others")
    for kind in sorted({(categories[point], unicodedata.category(chr(point))) for point in left}):
        same = [point for point in left if (categories[point], unicodedata.category(chr(point))) == kind]
        print(f"    toolchain {kind[0]}, Python {kind[1]}: {ranges(same)}")
    return len(left)


def main():
    categories, version = rows(folder())
    print(f"the toolchain's table: Unicode {version}; Python's unicodedata: Unicode {unicodedata.unidata_version}")
    report("general category", lambda point: categories[point], lambda point: unicodedata.category(chr(point)), categories)
    left = 0
    for name, (test, method) in PREDICATES.items():
        left += report(name, lambda point: test(point, categories[point]), lambda point: method(chr(point)), categories)
    return 1 if left else 0


if __name__ == "__main__":
    sys.exit(main())
