"""What may be believed of members' words on one question."""

from .errors import NoSuchMember


class Reading:
    """The words of members on one question, and the first bit that more than t of them told.

    Only a member's first word counts: a correct member never tells another. The crate `client` proves this rule, and that what a
    reading believes is the decision of every correct member, if at most t of the n members are faulty.
    """

    def __init__(self, n: int, t: int) -> None:
        self._n = n
        self._t = t
        self._words: dict[int, bool] = {}
        self._decision: bool | None = None

    def take(self, member: int, bit: bool) -> None:
        """Takes a member's word that the question is decided as `bit`. NoSuchMember: nothing is taken."""
        if not 0 <= member < self._n:
            raise NoSuchMember(f"{member}: the members are 0 to {self._n - 1}")
        if member in self._words:
            return
        self._words[member] = bit
        if self._decision is None and sum(word == bit for word in self._words.values()) > self._t:
            self._decision = bit

    @property
    def decision(self) -> bool | None:
        """The bit that may be believed, or None if no bit was told by more than t members."""
        return self._decision

    @property
    def words(self) -> dict[int, bool]:
        """Each member's first word."""
        return dict(self._words)
