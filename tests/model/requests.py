"""The causes of resets that are requested in a tick, and which of them its step requested."""

from system import Cause


class Requests(set[Cause]):
    def __init__(self):
        super().__init__()
        self.of_step: set[Cause] = set()

    def begin_step(self) -> None:
        self.of_step.clear()

    def add(self, cause: Cause) -> None:
        super().add(cause)
        self.of_step.add(cause)
