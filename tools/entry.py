"""What tools/quote, tools/price and tools/ladder share: fields from words or from a CSV file, the program that answers, and its replies in words."""
import csv
import pathlib
import re
import struct
import subprocess
import sys

ROOT = pathlib.Path(__file__).resolve().parents[1]
SIDES = {"call": 0, "put": 1}
WORDS = {side: word for word, side in SIDES.items()}
REFUSALS = {
    1: "the side is neither 0 (call) nor 1 (put)",
    2: "a figure is NaN or infinite",
    3: "the forward or the strike is not above 0",
    4: "the time is below 0",
    5: "the time is zero and the price is not the intrinsic value, or 0 where that is below 0",
    6: "the price is above the forward (call) or the strike (put)",
    7: "the normalised time value is below 0: the price is below the intrinsic value, or below 0",
    8: "the normalised price is above its bound b_max",
    9: "no volatility was found: the search gave none, or a root that is not finite and above 0, or a value at the money that is NaN or below 0",
    11: "the volatility is below 0",
    12: "the lengths of the six slices are not all equal",
    13: "more than 500 strikes",
    15: "the factor is not above 0",
}
SOLVED = ["volatility", "total volatility", "evaluations"]  # the results of a quote


def packed(records):
    """A side and figures each, in XDR."""
    return b"".join(struct.pack(f">I{len(fields) - 1}d", *fields) for fields in records)


def number(digits):
    """A figure for a person, from the 16 digits of its bits."""
    x = struct.unpack(">d", bytes.fromhex(digits))[0]
    return "infinite" if x == float("inf") else "NaN" if x != x else repr(x)


def meaning(refusal):
    return f"refusal {refusal}: {REFUSALS.get(refusal, 'no such number')}"


def solved(refusal, found):
    """A quote's reply with its results as text: `found` has the digits of total volatility and volatility, and the count; of a refusal the count alone."""
    if refusal is not None:
        return refusal, ["-", "-", found]
    total, volatility, count = found
    return None, [number(volatility), number(total), count]


def answered(replies):
    """What a table ends with: how many answers and refusals."""
    count = sum(refusal is None for refusal, _ in replies)
    return f"{count} answered, {len(replies) - count} refused"


def numbered(lines, count, answer, ending):
    """The replies in the lines of a program that numbers them: (None, groups of the pattern `answer`), or (refusal, its count). None where the
    lines are not those of `count` records. `ending` says of the replies which lines come last."""
    found = []
    for i, line in enumerate(lines[:count], 1):
        if match := re.fullmatch(f"{i} {answer}", line):
            found.append((None, match.groups()))
        elif match := re.fullmatch(rf"{i} R (\d+) (\d+)", line):
            found.append((int(match[1]), match[2]))
    return found if len(found) == count and lines[count:] == ending(found) else None


class Entry:
    """What is asked of a tool: `tool` is its name, `record` that of a line of its files, `crate` the program that answers, `names` are those of a
    record's fields, and `results` those of what is printed for it. `defaults` has the values of fields that may be left out, which come last."""

    def __init__(self, tool, record, crate, names, results, defaults={}):
        self.tool, self.record, self.crate, self.names, self.results, self.defaults = tool, record, crate, names, results, defaults
        self.least = len(names) - len(defaults)
        self.program = ROOT / "crates" / crate / "out" / crate

    def stop(self, status, message):
        print(f"{self.tool}: {message}", file=sys.stderr)
        sys.exit(status)

    def side(self, text, where):
        word = text.strip().lower()
        if word in SIDES:
            return SIDES[word]
        if not re.fullmatch(r"[0-9]+", word) or int(word) >= 2**32:
            self.stop(2, f"{where}the side is 0 or call, 1 or put, not {text!r}")
        return int(word)

    def figure(self, name, text, where):
        word = text.strip()
        try:
            value = float(word.replace("_", "?"))
        except ValueError:
            self.stop(2, f"{where}the {name} is a number, not {text!r}")
        # a number that binary64 does not reach would be another record
        if re.search(r"\d", word) and (abs(value) == float("inf") or value == 0 and re.search(r"[1-9]", re.split("[eE]", word)[0])):
            self.stop(2, f"{where}the {name} {word} is beyond what binary64 holds")
        return value

    def field(self, name, text, where=""):
        # In a file a place that is empty is left out; as an argument it is no number.
        if text is None or where and name in self.defaults and not text.strip():
            return self.defaults[name]
        return self.side(text, where) if name == "side" else self.figure(name, text, where)

    def fits(self, count):
        return self.least <= count <= len(self.names)

    def how_many(self):
        return " or ".join(str(count) for count in range(self.least, len(self.names) + 1))

    def fields(self, words, where=""):
        if not self.fits(len(words)):
            self.stop(2, f"{where}a {self.record} has {self.how_many()} fields ({', '.join(self.names)}), not {len(words)}")
        words = [*words, *[None] * (len(self.names) - len(words))]
        return tuple(self.field(name, text, where) for name, text in zip(self.names, words))

    def records_of(self, path):
        try:
            with open(path, newline="", encoding="utf-8-sig") as file:
                reader = csv.reader(file, strict=True)
                rows = [(reader.line_num, row) for row in reader if any(field.strip() for field in row)]
        except OSError as error:
            self.stop(2, f"{path}: {error.strerror}")
        except (UnicodeDecodeError, csv.Error) as error:
            self.stop(2, f"{path} is no CSV file: {error}")
        if rows and rows[0][1][0].strip().lower() == self.names[0]:
            rows = rows[1:]
        if not rows:
            self.stop(2, f"{path} has no {self.record}s")
        return [self.fields(row, f"{path}, line {number}: ") for number, row in rows]

    def build(self):
        if self.program.exists():
            return
        folder, name = ROOT / "crates" / self.crate, self.program.relative_to(ROOT)
        print(f"{self.tool}: {name} is missing; proving and building it (rt run in crates/{self.crate}), which takes minutes", file=sys.stderr)
        try:
            # what rt says of the proof comes on standard error; the program is run too, on no input
            status = subprocess.run(["rt", "run"], cwd=folder, stdin=subprocess.DEVNULL, stdout=subprocess.DEVNULL).returncode
        except OSError as error:
            self.stop(3, f"rt: {error.strerror}")
        if status != 0 or not self.program.exists():
            self.stop(3, f"rt run did not build {name}, or its run failed")

    def asked(self, given, whole, read, *how):
        """What `read`, with `how`, makes of the lines that the program prints for the bytes `given`; it has None for lines that do not answer `whole`."""
        try:
            ran = subprocess.run([str(self.program)], input=given, stdout=subprocess.PIPE)
        except OSError as error:
            self.stop(3, f"{self.program}: {error.strerror}")
        found = read(ran.stdout.decode("ascii", "replace").split("\n"), *how) if ran.returncode == 0 else None
        if found is None:
            self.stop(3, f"{self.program} did not answer {whole}")
        return found

    def show(self, refusal, results):
        if refusal is not None:
            print(meaning(refusal))
        width = max(len(name) for name in self.results)
        for name, result in zip(self.results, results):
            if result != "-":
                print(f"{name.ljust(width)}  {result}")

    def table(self, records, replies, summary):
        """A field that has its default in every record has no column."""
        shown = [k for k, name in enumerate(self.names) if name not in self.defaults or any(fields[k] != self.defaults[name] for fields in records)]
        rows = [["", *[self.names[k] for k in shown], *self.results]]
        notes = [""]
        for i, (fields, (refusal, results)) in enumerate(zip(records, replies), 1):
            given = [WORDS.get(x, str(x)) if name == "side" else repr(x) for name, x in zip(self.names, fields)]
            rows.append([str(i), *[given[k] for k in shown], *results])
            notes.append("" if refusal is None else meaning(refusal))
        widths = [max(len(row[k]) for row in rows) for k in range(len(rows[0]))]
        for row, note in zip(rows, notes):
            print("  ".join([field.rjust(width) for field, width in zip(row, widths)] + [note]).rstrip())
        print(f"{len(records)} {self.record}s: {summary}")

    def words(self, usage):
        """The command's words, where they do not ask for the usage."""
        words = sys.argv[1:]
        if words in (["-h"], ["--help"]):
            sys.exit(print(usage))
        return words

    def main(self, replies_to, usage, tally=answered):
        """`replies_to` has a pair for each of the records: None or the refusal, and the results as text, `-` for what a refusal leaves out. `tally`
        says of the replies what a table ends with."""
        words = self.words(usage)
        if self.fits(len(words)):
            given = self.fields(words)
            self.build()
            self.show(*replies_to([given])[0])
        elif len(words) == 1:
            given = self.records_of(words[0])
            self.build()
            replies = replies_to(given)
            self.table(given, replies, tally(replies))
        else:
            self.stop(2, f"{self.how_many()} fields, or one CSV file\n{usage}")
