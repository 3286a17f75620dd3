"""Answers to conflicts, as files that come from elsewhere."""
from model.answers import Given, spelled, write_answers
from model.operations import shown
from model.references import write_ref

from .steps import Steps
from .texts import WORDS


class Answering(Steps):
    """Files of answers, of now or of some time before, whole or damaged."""

    def settle(self) -> None:
        """Settles by one file or two, now and then a second time; a file may be an old one, or be of another project."""
        project = self.any_project()
        names = ["one", "other"][: self.rng.choice([1, 1, 2])]
        files = {name: self.any_answers() for name in names}
        if self.rng.random() < 0.03:
            del files[names[-1]]
        for _ in range(self.rng.choice([1, 1, 2])):
            self.step("settle", project, "--answers", *names, **files)

    def any_answers(self) -> bytes:
        if self.answers and self.rng.random() < 0.2:
            return self.rng.choice(self.answers)
        data = write_answers([self.answer() for _ in range(self.rng.choice([0, 1, 1, 2, 3]))])
        self.answers.append(self.damaged_answers(data) if self.rng.random() < 0.3 else data)
        return self.answers[-1]

    def answer(self) -> Given:
        """An answer over what a segment shows, mostly one that shows several."""
        held = self.held(self.any_project())
        shows = {(it.book, it.key): [] for it in held.values()}
        for book, key in shows:
            shows[book, key] = [it.id for it in shown(held, book, key)]
        several = sorted(it for it, ids in shows.items() if len(ids) > 1)
        book, key = self.rng.choice(several) if several and self.rng.random() < 0.8 else self.any_segment(self.any_project())
        ids = list(shows.get((book, key), []))
        self.rng.shuffle(ids)
        while len(ids) < 2 or self.rng.random() < 0.1:
            ids += [it for it in [self.any_id(held)] if it not in ids]
        remark = self.rng.choice([b"", b"\n", self.rng.choice(WORDS).encode()]) if self.rng.random() < 0.3 else None
        chance = self.rng.random()
        if chance < 0.4:
            return Given(book, key, tuple(ids), taken=self.rng.choice(ids), remark=remark)
        own = self.any_text(book, key) if chance < 0.9 else None
        return Given(book, key, tuple(ids), own=own, remark=remark)

    def damaged_answers(self, data: bytes) -> bytes:
        """A file that was cut on its way, or changed by hand."""
        place = self.rng.randrange(len(data))
        line = b"conflict %s 1:ana %s\n" % (write_ref(*self.any_segment(self.any_project())).encode(), self.odd_word())
        return self.rng.choice(
            [
                data[:place],
                data[:place] + data[place + 1 :],
                data[:place] + self.rng.choice([b"\xff", b"0", b"9", b" ", b"\n", b":"]) + data[place + 1 :],
                data + line,
                data + self.rng.choice([b"\n", b"take 1:ana\n", b"text 0\n\n", b"remark 1\n\n", b"conflict MAT 1:1\n"]),
                data.replace(b" ", b"  ", 1),
            ]
        )

    def odd_word(self) -> bytes:
        """The last id of a conflict's line, or no id."""
        return self.rng.choice([b"1:ana", b"0:ana", b"01:ana", b"1:Ana", b"2:ana ", spelled(self.any_id({})).encode()])
