"""The program rectify (document 01, "Verdicts"; card 7 of document 02): judge, then choose where every input is fixable.

    rectify(data)   a job's verdict, by both services; many jobs stand in several calls, so the replies are kept
    said(verdict)   what the program prints, its lines joined by ", "
"""

from dataclasses import dataclass
from functools import lru_cache

import choose as choosing
import judge as judging

judge = lru_cache(maxsize=None)(judging.judge)
choose = lru_cache(maxsize=None)(choosing.choose)


@dataclass
class Verdict:
    judged: judging.Judgement
    chosen: choosing.Choice

    @property
    def number(self):
        return self.judged.number

    @property
    def telling(self):
        """The reply that says it."""
        return self.chosen if self.judged.name == "fixable" else self.judged

    @property
    def name(self):
        return self.telling.name

    @property
    def value(self):
        return self.telling.value

    @property
    def vectors(self):
        return self.judged.vectors

    @property
    def patch(self):
        return self.chosen.patch


def rectify(data):
    return Verdict(judge(data), choose(data))


def said(verdict):
    if verdict.number:
        return f"refused {verdict.number}"
    vectors = " ".join(str(vector) for vector in verdict.vectors)
    if verdict.name != "patch":
        return f"{verdict.name} {verdict.value}, vectors {vectors}"
    support = "".join(f" {net}" for net in verdict.patch.support)
    table = " ".join(str(entry) for entry in verdict.patch.table)
    notes = " ".join(str(note) for note in verdict.patch.notes)
    return f"patch cost {verdict.value}, support{support}, table {table}, vectors {vectors}, notes {notes}"
