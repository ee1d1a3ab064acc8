"""What the makers of runs share: P1 of document 01, a house's dates, the text of a sheet, and the files of a crate."""
import os

# Start of work, completion and survey day (document 02, request 3): of a house over ten years old on the survey day,
# which are P1's, and of one under ten.
OVER_TEN = (19800401, 19801001, 20120401)
UNDER_TEN = (20050401, 20051001, 20120401)


def dates_row(days):
    return (8,) + days + (0, 0, 0, 0)


# P1, with age 0 and a dates row, as document 02's request 3 asks for them.
P1 = [
    (1, 1, 2, 100, 1, 1, 0, 0),
    (2, 1, 4000, 5000, 1, 0, 0, 0),
    (3, 1, 1, 1000, 1000, 1, 1, 0),
    (3, 1, 2, 1000, 1000, 1, 1, 0),
    (4, 1, 1, 1, 20, 2000, 1, 1),
    (4, 1, 1, 2, 0, 2000, 0, 2),
    (4, 1, 1, 3, 20, 2000, 1, 1),
    (4, 1, 2, 1, 20, 2000, 1, 1),
    (4, 1, 2, 2, 20, 4000, 1, 1),
    (4, 1, 2, 3, 20, 2000, 1, 1),
    (5, 8191, 8, 0, 0, 0, 0, 0),
    dates_row(OVER_TEN),
]


def line(numbers):
    """A line: eight numbers, each right-justified in eight characters, then byte 10."""
    return b"".join(b"%8d" % n for n in numbers) + b"\n"


def sheet(rows):
    return b"".join(line(row) for row in rows)


def main(tool, made, arguments):
    """Writes the files of the crate that a tool makes runs for, each by its name and content; with --check compares them
    instead."""
    crate = f"run_{tool}"
    if arguments not in ([], ["--check"]):
        print(f"usage: tools/{tool} [--check]")
        return 2
    root = os.path.join(os.path.dirname(os.path.abspath(__file__)), "..", "crates", crate)
    data = os.path.join(root, "data")
    os.makedirs(data, exist_ok=True)
    present = {os.path.join("data", name) for name in os.listdir(data)}
    if arguments == ["--check"]:
        wrong = sorted(present - set(made))
        for name, content in made.items():
            path = os.path.join(root, name)
            if not os.path.exists(path) or open(path, "rb").read() != content:
                wrong.append(name)
        for name in wrong:
            print(f"{crate}: not as made:", name)
        return 1 if wrong else 0
    for name in present - set(made):
        os.remove(os.path.join(root, name))
    for name, content in made.items():
        with open(os.path.join(root, name), "wb") as f:
            f.write(content)
    sheets = sum(os.path.dirname(name) == "data" for name in made)
    print(sheets, "sheets,", len(made["stdout"]), "bytes of output")
    return 0
