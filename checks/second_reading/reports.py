"""What is written of a script: a line for each answer that is shown, and at the end how many answers and entries there are."""
from .farm import BOUNDS, Farm
from .scripts import Edit

STEPS_OF_EDIT = (("begin",), ("commit",))
STEPS_OF_VIEW = (("wait", True), ("look",), ("snap",), ("store",))


class Drill:
    """A script on its farm: `line` makes the steps of a line, `answers` has the number of the line, the answer and its text."""

    def __init__(self, lines, failing=()):
        setting = {line.form: line.values for line in lines[:2] if line.form in ("farm", "bounds")}
        home, west, epoch = setting.get("farm", ((1,), (1,), 0))
        self.farm = Farm((home, west), epoch, setting.get("bounds", BOUNDS), failing)
        self.readings, self.answers = (0, 0), []

    def line(self, number, line):
        composite = line.form in ("edit", "view")
        for answer in self.several(*line.values) if composite else self.one(line):
            if answer and not (composite and answer.words.startswith("miss")):
                self.answers.append((number, answer, answer.text(not composite)))

    def one(self, line):
        """The answer of a line that is one step, or none."""
        if line.form == "at":
            self.readings = line.values
        step = {"beat": self.farm.beat, "apply": self.farm.apply, "open": self.farm.arrive, "begin": self.farm.begin,
                "commit": self.farm.commit, "look": self.farm.look, "snap": self.farm.snap, "store": self.farm.store,
                "carry": self.farm.carry, "drop": self.farm.drop, "markup": self.farm.set_markup,
                "wait": lambda readings, id: self.farm.wait(readings, id, False)}.get(line.form)
        return [step(self.readings, *line.values)] if step else []

    def several(self, asked):
        """The answers of a line that is a whole request, up to the first that is no miss."""
        self.farm.arrive(self.readings, 0, asked)
        for step, *rest in STEPS_OF_EDIT if isinstance(asked, Edit) else STEPS_OF_VIEW:
            answer = getattr(self.farm, step)(self.readings, 0, *rest)
            yield answer
            if answer and not answer.words.startswith("miss"):
                return

    def report(self):
        made = []
        for number, answer, text in self.answers:
            made.append(f"{number} {text}\n".encode())
            made.append(answer.page or b"")
        made.append(f"end answers={len(self.answers)} entries={len(self.farm.history)}\n".encode())
        return b"".join(made)


def drill(lines, failing=()):
    """The run of a script."""
    run = Drill(lines, failing)
    for number, line in enumerate(lines, 1):
        run.line(number, line)
    return run


def answers_of_report(report):
    """What a report says: the number of the line, the answer's text and its page, for each answer; and its last line."""
    found, at = [], 0
    while True:
        end = report.index(b"\n", at)
        number, _, text = report[at:end].decode().partition(" ")
        if number == "end":
            return found, report[at:end].decode()
        size = int(text.rpartition(" bytes=")[2]) if text.startswith("ok ") else 0
        found.append((int(number), text, report[end + 1:end + 1 + size]))
        at = end + 1 + size
