"""Copies of the repository in which right bodies are tried. This module is not run: `tests/right_bodies` and
`tools/free_proofs` import it.
"""
from edit_rooms import Rooms


class Trees(Rooms):
    """Rooms that can make the tree of a crate without a proof."""

    is_making = False

    def make(self, crate):
        """Makes the tree of a crate whose libraries have trees, and proves nothing."""
        self.is_making = True
        self.prove(crate, 1)
        self.is_making = False

    def run(self, root, crate, words, title):
        return None if self.is_making else super().run(root, crate, words, title)
