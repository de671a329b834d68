"""first.py: what member 1 of four answers to one statement, and why it is saved before it is sent.

    BRACHA_LIBRARY=libbracha.so.0 python3 examples/first.py
"""

from bracha_core import Core, Size, statement_frame

size = Size(n=4, t=1, questions=1)
initial = bytes([1, 0, 0, 0, 1, 1, 1])  # member 0's Initial One on question 0, in round 1 and step 1
journal = bytearray()  # a real member has bracha_core.Journal

core = Core(size, 1)
answer = core.hear(0, initial)
print(f"member 0 says Initial One to member 1: {answer.outcome.name}, {len(answer.records) // 7} record to be saved")
for due in answer.save(journal.extend):
    print(f"  it is saved, so send to all the frame {statement_frame(due).hex()}")
print(f"member 0 says the same again: {core.hear(0, initial).outcome.name}")
print(f"member 2 sends member 0's Initial: {core.hear(2, initial).outcome.name}")

answer = Core(size, 1, bytes(journal)).hear(0, initial)
print(f"after a restart from the journal, once more: {answer.outcome.name}, {len(answer.records) // 7} records, for the Echo was said")
