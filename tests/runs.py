"""What tests/sheet, tests/prices, tests/ladders and tests/windows share: runs of a program on inputs whose text is known, and on the oracle's;
groups of them; the usage."""
import os
import pathlib
import resource
import signal
import struct
import subprocess
import sys
import tempfile
import time

ROOT = pathlib.Path(__file__).resolve().parents[1]
LIMIT = 60  # seconds for a run
PAUSE = 0.001  # seconds between two pieces of input


def packed(*records):
    """A side and figures each, in XDR."""
    return b"".join(struct.pack(f">I{len(fields) - 1}d", *fields) for fields in records)


def not_finite(*more):
    """Records with patterns of NaN, quiet and signalling, of both signs, or the infinities, in each figure, and their refusals: 2, and 1 first. Figures
    are price, forward, strike and time, and `more`."""
    patterns = [sign | bits for sign in (0, 1 << 63) for bits in (0x7FF << 52, (0x7FF << 52) + 1, 0x7FF7 << 48, 0x7FF8 << 48, 0x7FF8000000000001, 2**63 - 1)]
    good, found = [struct.pack(">d", x) for x in (1.0, 100.0, 120.0, 1.0, *more)], []
    for side in (0, 1, 2, 2**32 - 1):
        for place in range(len(good)):
            for bits in patterns:
                fields = good[:place] + [struct.pack(">Q", bits)] + good[place + 1 :]
                found.append((struct.pack(">I", side) + b"".join(fields), 2 if side < 2 else 1))
    return found


class Runs:
    """The runs of a test, which has the name of its program. `usage` is the test's text; `inputs` says how many are compared with the oracle."""

    def __init__(self, name, usage, inputs):
        self.name, self.usage, self.inputs = name, usage, inputs
        self.program, self.failed = ROOT / "crates" / name / "out" / name, 0

    def stop(self, status, message):
        print(f"tests/{self.name}: {message}", file=sys.stderr)
        sys.exit(status)

    def begin(self, words):
        if words in (["-h"], ["--help"]):
            sys.exit(print(self.usage))
        if len(words) > 2 or not all(word.isdecimal() for word in words[1:]):
            self.stop(2, f"a program and a number\n{self.usage}")
        if words and not pathlib.Path(words[0]).is_file():
            self.stop(2, f"{words[0]} is not there")
        self.program, self.inputs = pathlib.Path(words[0]).resolve() if words else self.program, int(words[1]) if words[1:] else self.inputs
        if not self.program.is_file():
            self.stop(3, f"{self.program} is not built: run `rt run` in crates/{self.name}")

    def run(self, **how):
        try:
            return subprocess.run([str(self.program)], timeout=LIMIT, **how)
        except subprocess.TimeoutExpired:
            self.stop(1, f"a run has not ended after {LIMIT} s")

    def text(self, data):
        return self.run(input=data, stdout=subprocess.PIPE).stdout

    def group(self, name, runs):
        """Each run is a pair: what was printed, what should have been. Of the first difference the line is shown, and what follows."""
        differ = [(found, right) for found, right in runs if found != right]
        print(f"{name}: {len(runs)} run, {len(differ)} differ", flush=True)
        for found, right in differ[:1]:
            at = right.rfind(b"\n", 0, len(os.path.commonprefix([found, right]))) + 1
            print(f"  printed {found[at : at + 200]!r}\n  not     {right[at : at + 200]!r}")
        self.failed += len(differ)

    def kept(self):
        """The input that the repository keeps, and the oracle's text of it."""
        folder = ROOT / "crates" / self.name
        return (folder / "stdin").read_bytes(), (folder / "stdout").read_bytes()

    def pieces(self, sizes, pauses=0):
        """The kept text where the input comes in pieces of these sizes, with a pause after each of the first so many."""
        (data, right), runs = self.kept(), []
        for size in sizes:
            # To a file, since a pipe that is not read before all is written may fill.
            with tempfile.TemporaryFile() as file:
                program = subprocess.Popen([str(self.program)], stdin=subprocess.PIPE, stdout=file)
                try:
                    for i in range(0, len(data), size):
                        program.stdin.write(data[i : i + size])
                        program.stdin.flush()
                        if i < size * pauses:
                            time.sleep(PAUSE)
                except BrokenPipeError:  # it ended before it read all: its text differs
                    pass
                program.communicate()
                file.seek(0)
                runs.append((file.read(), right))
        return runs

    def text_in_file(self, data, most):
        """What is written to a file that takes at most so many bytes."""

        def limited():
            signal.signal(signal.SIGXFSZ, signal.SIG_IGN)
            resource.setrlimit(resource.RLIMIT_FSIZE, (most, most))

        with tempfile.TemporaryFile() as file:
            self.run(input=data, stdout=file, preexec_fn=limited)
            file.seek(0)
            return file.read()

    def failures(self):
        """A read that fails prints nothing; a write that fails or is short leaves a part of the text and nothing else; of a full device the exit status is 1."""
        folder = os.open("/", os.O_RDONLY)
        runs = [(self.run(stdin=folder, stdout=subprocess.PIPE).stdout, b"")]
        os.close(folder)
        runs.append((self.run(stdin=None, stdout=subprocess.PIPE, preexec_fn=lambda: os.close(0)).stdout, b""))
        data, right = self.kept()
        runs += [(self.text_in_file(data, most), right[:most]) for most in (0, 1, 6000, len(right) - 1)]
        with open("/dev/full", "wb") as full:
            runs.append((b"%d" % self.run(input=data, stdout=full).returncode, b"1"))
        return runs

    def unwritten(self):
        """Of input without end, all zeros, the program ends with status 1 where it cannot write: to a full device, or to a pipe that nobody reads."""
        with open("/dev/zero", "rb") as endless:
            with open("/dev/full", "wb") as full:
                runs = [(b"%d" % self.run(stdin=endless, stdout=full).returncode, b"1")]
            # The program ignores the signal, whether or not it was started with it ignored, as by this process: the write fails.
            for restored in (True, False):
                reader, writer = os.pipe()
                os.close(reader)
                runs.append((b"%d" % self.run(stdin=endless, stdout=writer, restore_signals=restored).returncode, b"1"))
                os.close(writer)
        return runs

    def drawn(self, size, seed):
        """The text of a drawn input, and the oracle's."""
        generated = [ROOT / "oracle/generate", self.name, "mixed", str(size), str(seed)]
        data = subprocess.run(generated, stdout=subprocess.PIPE, check=True).stdout
        right = subprocess.run([ROOT / "target/oracle/oracle", self.name], input=data, stdout=subprocess.PIPE, check=True).stdout
        return self.text(data), right

    def end(self, name, size):
        """The last group, whose inputs of so many records or places are drawn, where the outside Rust is there; then the test's exit status."""
        built = subprocess.run([ROOT / "oracle/build"], stdout=subprocess.DEVNULL).returncode
        if built == 0:
            self.group(name, [self.drawn(size, seed) for seed in range(1, self.inputs + 1)])
        elif built == 4:
            print(f"{name}: LEFT OUT, since the outside Rust is not there")
            print("exit status 1: some of what was run differs" if self.failed else "exit status 0: what was run is right")
        else:
            self.stop(1, f"oracle/build failed with status {built}")
        sys.exit(self.failed > 0)
