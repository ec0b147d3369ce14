"""`tsq serve --follow`: sessions over a copy of a journal that another process writes."""
from __future__ import annotations

import threading

from .follower import Follower
from .messages import Trouble
from .sessions import LONGEST, Ended, Sessions

# Between two looks at the journal, and after one that failed, in seconds.
EVERY = 0.3
AFTER_TROUBLE = 3.0


class Following(Sessions):
    """Sessions that only ask, over a follower's copy. The program is exchanged when there is something new."""

    def __init__(self, follower: Follower, longest: float = LONGEST) -> None:
        super().__init__(follower.folder, longest)
        self.follower = follower
        self.trouble = ""

    def follow(self, ended: threading.Event) -> None:
        """Follows the journal until this is set."""
        while not ended.wait(AFTER_TROUBLE if self.trouble else EVERY):
            if self.trouble or self.follower.has_news():
                self.catch_up()

    def catch_up(self) -> None:
        """Takes what is new. Nobody is answered meanwhile, for a few tenths of a second."""
        with self.turns:
            if self.is_ending:
                return
            if self.program is not None:
                self.program.end()
                self.program = None
            before, self.trouble = self.trouble, self.step()
            try:
                self.begin()
            except Ended:
                return
        if before != self.trouble or not self.trouble:
            self.news.tell()

    def step(self) -> str:
        """Lets the copy take what is new, and gives what is wrong with the journal, which may mend itself."""
        try:
            self.follower.step()
            return ""
        except Trouble as trouble:
            return str(trouble)
