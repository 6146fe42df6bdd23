"""Holds a program dimmhalt to all that can be seen of it.

    python3 tests/command/cases.py NAME [--some] WORDS..    NAME names the run in what is printed; WORDS start the program, from any folder

With --some, all parts of it in few runs, for where it is slow to start.
"""

import pathlib
import sys

from calls import hold_calls, hold_wrong_judge_calls
from files import hold_files, hold_wrong_files
from holding import Holder
from last import hold_all_of_last, hold_few_lasts
from mark import hold_mark, hold_wrong_turns_calls
from outline import hold_deep, hold_outline, hold_small
from progress import hold_progress
from sheet import hold_few_sheets, hold_sheet
from streams import hold_colour, hold_streams
from turns import hold_all_turns, hold_few_turns
from words import hold_examples, hold_places, hold_words

EXAMPLES = pathlib.Path(__file__).resolve().parent.parent.parent / "examples"


def hold_all(holder):
    hold_words(holder, EXAMPLES)
    hold_outline(holder, EXAMPLES)
    hold_all_turns(holder, EXAMPLES)
    hold_sheet(holder, EXAMPLES)
    hold_calls(holder)
    hold_mark(holder)
    hold_all_of_last(holder)
    hold_files(holder)
    hold_streams(holder)
    hold_progress(holder)


def hold_some(holder):
    hold_examples(holder, EXAMPLES)
    hold_places(holder)
    hold_small(holder, EXAMPLES)
    hold_deep(holder, (64,))
    hold_few_turns(holder, EXAMPLES)
    hold_few_sheets(holder, EXAMPLES)
    hold_few_lasts(holder)
    hold_wrong_judge_calls(holder)
    hold_wrong_turns_calls(holder)
    hold_wrong_files(holder)
    hold_colour(holder)


def main(name, *words):
    hold, words = (hold_some, words[1:]) if words[0] == "--some" else (hold_all, words)
    holder = Holder(words)
    hold(holder)
    return holder.tally(name)


if __name__ == "__main__":
    sys.exit(main(*sys.argv[1:]))
