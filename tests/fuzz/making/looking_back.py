"""What was in a project, what changed, and texts that are had back."""
from model.bundles import summary_of, write_project, write_summary
from model.operations import replaced_in
from model.references import write_ref

from .damage import damaged
from .steps import Steps


class LookingBack(Steps):
    """Commands that look back."""

    def any_names(self, project: str) -> list[str]:
        """Books and segments, and now and then the word that makes chapters of these."""
        words = []
        for _ in range(self.rng.choice([1, 1, 1, 2, 3])):
            book, key = self.any_segment(project)
            words.append(book if self.rng.random() < 0.4 else write_ref(book, key))
        if self.rng.random() < 0.3:
            words.insert(self.rng.randint(0, len(words)), "--chapter")
        return words

    def any_past(self, project: str) -> bytes:
        """What some project knows, or did: a summary, a bundle or a project, now and then with something wrong."""
        held = self.held(self.any_project() if self.rng.random() < 0.5 else project)
        known = {id: it for id, it in held.items() if self.rng.random() < 0.7}
        if self.rng.random() < 0.3:
            known = dict(sorted(held.items())[: self.rng.randint(0, len(held))])
        data = self.rng.choice([write_summary(summary_of(known)), *self.bundles[-2:], self.folder[self.any_project()]])
        if self.rng.random() < 0.1:
            data = write_project("cy", {})
        return damaged(self.rng, data) if self.rng.random() < 0.06 else data

    def history(self) -> None:
        project = self.any_project()
        self.step("history", project, *self.any_names(project))

    def changes(self) -> None:
        project = self.any_project()
        names = self.any_names(project) if self.rng.random() < 0.3 else []
        texts = ["--text"] if self.rng.random() < 0.6 else []
        self.step("changes", project, *texts, "--since", "past", *names, past=self.any_past(project))

    def restore(self) -> None:
        """Texts of edits, mostly of replaced ones, and what is written of what is lacking."""
        project = self.any_project()
        held = self.held(project)
        replaced = sorted(replaced_in(held))
        ids = [self.rng.choice(replaced) if replaced and self.rng.random() < 0.8 else self.any_id(held)]
        while self.rng.random() < 0.3:
            ids.append(self.any_id(held))
        words = [f"{it.number}:{it.name}" for it in ids]
        self.step("restore", project, *words, *(["--try"] if self.rng.random() < 0.15 else []))
        if self.rng.random() < 0.5:
            self.step("restore", project, *words)

    def restore_since(self) -> None:
        project = self.any_project()
        names = self.any_names(project) if self.rng.random() < 0.8 else ["--all"]
        if self.rng.random() < 0.05:
            names = []
        tries = ["--try"] if self.rng.random() < 0.15 else []
        self.step("restore", project, "--since", "past", *tries, *names, past=self.any_past(project))
