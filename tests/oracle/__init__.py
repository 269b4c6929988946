"""A plain session of the Fact Graph, written from docs/DICTIONARIES.md and docs/COMMANDS.md alone, that tests compare the engine with.

Nothing is kept but the answers: each question is evaluated anew, `undo` goes back to the answers that stood, and what a change
touches is told by comparing all results before it with all results after it. The dictionaries are ones that are accepted; of
tables `refusing` says which refuse one.
"""
