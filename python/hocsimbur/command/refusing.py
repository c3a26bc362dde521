"""What may end a command with a refusal: a question to the library, and what somebody wrote."""
from __future__ import annotations

from typing import Callable, TypeVar

from .. import core
from ..sheets.forms import Unclear
from ..sheets.words import Asked, refusal
from .stopped import Stopped

Answer = TypeVar("Answer")


def ask(question: Callable[[], Answer], asked: Asked, of: str = "") -> Answer:
    """The answer to a question, of a file where one is named; a refusal ends the command, in words."""
    try:
        return question()
    except core.Refused as refused:
        raise Stopped([refusal(refused, asked)], f"refused,{refused.number},{refused.line},{refused.column}\n", of) from None


def clear(of: str, made: Callable[..., Answer], *arguments: object) -> Answer:
    """What is made of what somebody wrote, in a file or an argument; what is unclear in it ends the command."""
    try:
        return made(*arguments)
    except Unclear as error:
        raise Stopped([str(error)], of=of) from None
