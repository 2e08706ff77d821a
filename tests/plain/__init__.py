"""A plain slow checker: one list of all events, one table for all clients, walked step by step.

It is written from docs/RULES.md and docs/FILES.md and shares no code with turnaudit, to be run beside it (tests/beside_plain.py), or
alone (tools/second_opinion.py, `python3 -m tests.plain`). It reads input that turnaudit takes; of refusals it knows nothing.
"""
