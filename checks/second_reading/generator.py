"""The script that a seed and a number of steps make, and the summary of its run."""
TITLES = "ABCDEFGH"


class Draws:
    def __init__(self, seed):
        self.seed = seed

    def below(self, limit):
        self.seed = (self.seed * 6364136223846793005 + 1442695040888963407) % 2**64
        return self.seed // 2**33 % limit


def script_of(seed, steps):
    """The script's bytes."""
    draws, home, messages = Draws(seed), 1000, 0
    revisions, wrote = dict.fromkeys(TITLES, 0), dict.fromkeys(range(1, 6), 0)
    lines = ["farm 3,1 2,1 0"]
    for step in range(1, steps + 1):
        home += draws.below(1500)
        lines.append(f"at {home} {home + draws.below(1201) - 600}")
        kind, client, title = draws.below(12), 1 + draws.below(5), TITLES[draws.below(8)]
        word, replica = draws.below(1000), draws.below(2)
        if kind < 2:
            lines.append(f"edit {client} t{step} {title} {revisions[title]} v{step}")
            revisions[title], wrote[client], messages = revisions[title] + 1, wrote[client] + 1, messages + 2
        elif kind < 4 or kind == 7 and not messages:
            lines.append("beat")
        elif kind < 7:
            lines.append(f"apply {'home' if kind < 6 else 'west'} {replica} 50")
        elif kind == 7:
            lines.append(f"carry {1 + draws.below(messages)}")
        else:
            cookie = f"{wrote[client]}@{home // 1000}" if kind == 11 and wrote[client] else "-"
            lines.append(f"view {'home' if kind == 8 else 'west'} {client} {cookie} {word} {title}")
    return ("\n".join(lines + ["end"]) + "\n").encode()


def summary_of(run, steps):
    """The line that `stir` writes of the run of its script."""
    answers = [answer for _, answer, _ in run.answers]
    kinds = [answer.words.split(" ")[0] for answer in answers]
    origins = [answer.facts["from"] for answer in answers if answer.words == "ok"]
    return (f"stir steps={steps} entries={len(run.farm.history)} saved={kinds.count('saved')} ok={kinds.count('ok')}"
            f" hit={origins.count('hit')} interim={origins.count('interim')} no-page={kinds.count('no-page')}"
            f" lag={kinds.count('lag')}\n").encode()
