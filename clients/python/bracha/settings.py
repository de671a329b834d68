"""The settings of a client, `client.toml`."""

import ipaddress
import tomllib
from dataclasses import dataclass
from pathlib import Path
from typing import Any

from .errors import BadSettings

_RANGES = (("cluster", 0, 2**64 - 1), ("n", 1, 64), ("t", 0, 21), ("questions", 1, 4096))


@dataclass(frozen=True)
class Settings:
    """A cluster as a client knows it. It holds no secret. BadSettings: what is wrong with the values."""

    cluster: int
    n: int
    t: int
    questions: int
    desks: tuple[str, ...]
    chain: bool = False
    """The members run a chain of epochs: questions are slots, any number, and each epoch has `questions` of them."""

    @property
    def limit(self) -> int:
        """The number that all questions are below: `questions`, or 2**64 in a chain."""
        return 2**64 if self.chain else self.questions

    def first_of(self, question: int) -> int:
        """Returns the first slot of this one's epoch. A cluster that is no chain has one epoch."""
        return question - question % self.questions if self.chain else 0

    def __post_init__(self) -> None:
        for key, least, most in _RANGES:
            value = getattr(self, key)
            if type(value) is not int or not least <= value <= most:
                raise BadSettings(f"{key}: must be an integer from {least} to {most}")
        if type(self.chain) is not bool:
            raise BadSettings("chain: must be true or false")
        if self.n <= 3 * self.t:
            raise BadSettings("n: must be above 3 times t")
        if len(self.desks) != self.n:
            raise BadSettings(f"desks: must be {self.n} addresses")
        # One desk under two numbers would count as two members.
        if len({address_of(desk) for desk in self.desks}) != self.n:
            raise BadSettings("desks: must differ")

    @classmethod
    def read(cls, path: str | Path) -> "Settings":
        """Reads the file that `bracha new-cluster` wrote. BadSettings: it can't be read, or what is wrong with it."""
        try:
            with open(path, "rb") as file:
                return cls.from_table(tomllib.load(file))
        except OSError as error:
            raise BadSettings(f"{path}: {error.strerror}") from error
        except (tomllib.TOMLDecodeError, UnicodeDecodeError, BadSettings) as error:
            raise BadSettings(f"{path}: {error}") from error

    @classmethod
    def from_table(cls, table: dict[str, Any]) -> "Settings":
        """Returns the settings in a table that a TOML reader gave. Other keys are ignored. BadSettings: what is wrong."""
        desks = table.get("desks")
        if not isinstance(desks, list) or not all(isinstance(desk, str) for desk in desks):
            raise BadSettings("desks: must be texts HOST:PORT")
        numbers = {key: table.get(key, -1) for key, _, _ in _RANGES}
        return cls(desks=tuple(desks), chain=table.get("chain", False), **numbers)


def address_of(desk: str) -> tuple[str, int]:
    """Returns the IPv4 address and the port of a desk, `HOST:PORT`. BadSettings: the text is no desk."""
    host, _, port = desk.rpartition(":")
    try:
        address = str(ipaddress.IPv4Address("127.0.0.1" if host == "localhost" else host))
    except ValueError as error:
        raise BadSettings(f"desks: {desk!r}: HOST must be localhost or an IPv4 address") from error
    if not (port.isascii() and port.isdigit() and len(port) <= 5 and 0 < int(port) < 65536):
        raise BadSettings(f"desks: {desk!r}: PORT must be from 1 to 65535")
    return address, int(port)
