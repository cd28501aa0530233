"""Checks within one test: a test that looks at many things goes on after the first that is wrong, and names them
all."""
import re


def slug(name):
    """A name as `pytest -k` takes it."""
    return re.sub(r"[^\w:.+/=]+", "-", name, flags=re.ASCII).strip("-")[:100]


class Checks:
    """What was looked at. A check is a name and what is wrong, or None. Of names that don't contain `word`, nothing is
    said."""

    def __init__(self, word=""):
        self.word, self.count, self.wrong = word, 0, []

    def add(self, name, wrong):
        if self.word in name:
            self.count += 1
            if wrong is not None:
                self.wrong.append(f"{name}: {wrong}")

    def all(self, pairs):
        for name, wrong in pairs:
            self.add(name, wrong)

    def equal(self, name, found, wanted):
        self.add(name, None if found == wanted else f"{found!r}, not {wanted!r}")

    def end(self):
        """Fails if a check was wrong, or if there was none."""
        if self.wrong:
            more = f"\n.. and {len(self.wrong) - 20} more" if len(self.wrong) > 20 else ""
            told = "\n".join(self.wrong[:20])
            raise AssertionError(f"{len(self.wrong)} of {self.count} checks are wrong:\n{told}{more}")
        if not self.count:
            raise AssertionError(f"nothing was checked whose name contains {self.word!r}" if self.word
                                 else "nothing was checked")
