"""A client of a bracha cluster.

Up to t of the n members lie, so a client believes only what more than t of them say: one of any t + 1 members is correct, and a
correct member tells only decisions that it has saved. README.md says where that is proved.

    from bracha import Cluster

    with Cluster.open("client.toml") as cluster:
        cluster.decide(7, True)          # proposes 1 on question 7 to every member, and returns the decision
        cluster.ask(7)                   # the decision, or None while there is none
        for decision in cluster.follow():
            print(decision.question, decision.bit)

`AsyncCluster` has the same methods for asyncio.

A question is a number below `Settings.questions`. If the members run a chain of epochs, which client.toml says by `chain = true`,
it is a slot, any number below 2**64, and there is always a next one.
"""

from .asynchronous import AsyncCluster
from .errors import BadSettings, BrachaError, Closed, Gone, NoSuchMember, NoSuchQuestion, TooFar, Undecided, Unreachable
from .reading import Reading
from .replies import Answer, Decision, Refusal, Stage, State, Status
from .settings import Settings
from .synchronous import Cluster

__all__ = [
    "Answer", "AsyncCluster", "BadSettings", "BrachaError", "Closed", "Cluster", "Decision", "Gone", "NoSuchMember",
    "NoSuchQuestion", "Reading", "Refusal", "Settings", "Stage", "State", "Status", "TooFar", "Undecided", "Unreachable",
]
