"""What was checked, and what failed."""

SHOWN = 400


def shown(piece):
    """A piece of output as one readable line, cut where it is long."""
    text = repr(piece)
    return text if len(text) <= SHOWN else f"{text[:SHOWN]}.. ({len(piece)} bytes)"


def first_difference(wanted, came):
    """The first line in which two outputs differ: its number from 1, and both lines."""
    wanted_lines, came_lines = wanted.splitlines(True), came.splitlines(True)
    for number, (one, other) in enumerate(zip(wanted_lines, came_lines)):
        if one != other:
            return number + 1, one, other
    shorter = min(len(wanted_lines), len(came_lines))
    behind = lambda lines: lines[shorter] if shorter < len(lines) else b""
    return shorter + 1, behind(wanted_lines), behind(came_lines)


class Report:
    """Counts what passed, and prints what failed at once."""

    def __init__(self):
        self.passed = 0
        self.failed = 0
        self.left_out = 0

    def check(self, name, wanted, came):
        """The value that came is the one that was wanted."""
        if wanted == came:
            self.passed += 1
        else:
            self.fail(name, f"expected {wanted!r}", f"came     {came!r}")

    def check_output(self, name, wanted, came):
        """The bytes that came are the ones that were wanted."""
        if wanted == came:
            self.passed += 1
        else:
            line, one, other = first_difference(wanted, came)
            self.fail(name, f"expected at line {line}: {shown(one)}", f"came at line {line}:     {shown(other)}")

    def check_run(self, name, status, output, ended):
        """A run ended with that status and output, and wrote nothing to standard error."""
        self.check_output(f"{name}: standard output", output, ended.output)
        self.check(f"{name}: status", status, ended.status)
        self.check_output(f"{name}: standard error", b"", ended.errors)

    def fail(self, name, *lines):
        self.failed += 1
        print(f"e2e: FAILED: {name}", *lines, sep="\n    ", flush=True)

    def not_run(self, name, why):
        """Checks that this machine can't run: that is said, and they count neither as passed nor as failed."""
        self.left_out += 1
        print(f"e2e: {name}: not run: {why}", flush=True)

    def all_passed(self):
        return self.failed == 0

    def counts(self):
        left_out = f", {self.left_out} not run" if self.left_out else ""
        return f"e2e: {self.passed} passed, {self.failed} failed{left_out}"
