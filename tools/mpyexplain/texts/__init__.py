"""All that is told to students: for each cause its rows, each with its condition on the place that was found, what it
says, and what to write instead; and what is told of the other answers.

The first row whose condition holds is told, and none where no place was found. In a text, `{word}` and such are put in
from the place, and lines that begin with four spaces are mPy.
"""
from . import blocks, characters, names, statements, values
from .answers import (BY_LIMITS, CHANGED, CORRECT, CORRECT_PRINTED, CORRECTION, CORRECTIONS, FAILS, FAULT, FAULTS, FIRST,
                      NONE, OF_BOUNDS, OF_REFERENCE, OF_RULES, PROGRAM, SPENT, SPENT_OPEN, SPENT_WRONG, TEACHERS)
from .causes import CAUSES

TABLE = {cause: rows for part in (characters, blocks, statements, names, values) for cause, rows in part.TABLE.items()}
__all__ = ['BY_LIMITS', 'CAUSES', 'CHANGED', 'CORRECT', 'CORRECT_PRINTED', 'CORRECTION', 'CORRECTIONS', 'FAILS',
           'FAULT', 'FAULTS', 'FIRST', 'NONE', 'OF_BOUNDS', 'OF_REFERENCE', 'OF_RULES', 'PROGRAM', 'SPENT',
           'SPENT_OPEN', 'SPENT_WRONG', 'TABLE', 'TEACHERS']
