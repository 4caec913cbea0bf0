"""Tests of the scripts and the pages."""
from collections.abc import Callable
from typing import Any

from workshop import frame


def came_of(*things: Any) -> dict[str, str]:
    """Makes the checks of these classes and modules, and returns the state of each."""
    return {name: it.state for test in frame.tests_of(things) for name, it in frame.made(test)[1].items()}


def state_of(call: Callable[[], object]) -> str:
    """The state of a check that makes this call."""

    class One(frame.Check):
        """The call."""

        def test_call(self) -> None:
            call()

    return [*came_of(One).values()][0]


def failed(*things: Any) -> list[str]:
    """The names of those that fail."""
    return [name for name, state in came_of(*things).items() if state == frame.FAILED]
