"""Errors, one for each cause."""


class BrachaError(Exception):
    """Any error of this package."""


class BadSettings(BrachaError, ValueError):
    """The file isn't a client.toml as `bracha new-cluster` writes it. The text says what is wrong."""


class NoSuchQuestion(BrachaError, IndexError):
    """The question isn't below the cluster's number of questions, or in a chain not below 2**64. Nothing was sent."""


class NoSuchMember(BrachaError, IndexError):
    """The member that was to be trusted isn't below n. Nothing was sent."""


class Undecided(BrachaError, TimeoutError):
    """The time was over before more than t members told the same decision. It may still come."""


class Gone(BrachaError):
    """More than t members of a chain have put the journal of the slot's epoch away, and no bit was told by more than t. The slot
    may be decided, but it can't be learned from these. `members` has those that say so; if one alone was asked, that one."""

    def __init__(self, members: list[int]) -> None:
        super().__init__(f"put away by member {_listed(members)}")
        self.members = members


class TooFar(BrachaError):
    """More than t members of a chain take no proposal for the slot, because its epoch is too far ahead of their newest one;
    `members` has those that say so. Try again once slots before it are decided."""

    def __init__(self, members: list[int]) -> None:
        super().__init__(f"too far ahead for member {_listed(members)}")
        self.members = members


class Unreachable(BrachaError, ConnectionError):
    """Too few members answered to believe anything. `silent` has the members that gave no reply of the protocol."""

    def __init__(self, silent: list[int]) -> None:
        super().__init__(f"no answer from member {_listed(silent)}")
        self.silent = silent


class Closed(BrachaError):
    """The cluster was closed before the call, or during it."""


def _listed(members: list[int]) -> str:
    return ", ".join(map(str, members))
