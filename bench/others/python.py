#!/usr/bin/env python3
"""What datetime.fromisoformat of this Python takes of each text: a line each, as `others times` has them.
The least of many rounds, less the least of a loop that does nothing; the interpreter's call is in it."""
import platform, timeit
from datetime import datetime, timedelta, timezone

CALLS, ROUNDS = 1000, 2000

def least(statement, text):
    return min(timeit.repeat(statement, number=CALLS, repeat=ROUNDS, globals={'read': datetime.fromisoformat, 'text': text})) / CALLS * 1e9

texts = {'2000-02-29': datetime(2000, 2, 29),
         '2000-02-29T10:20:30+02:00': datetime(2000, 2, 29, 10, 20, 30, tzinfo=timezone(timedelta(hours=2)))}
for text, value in texts.items():
    assert datetime.fromisoformat(text) == value
    print(f'{text}\tPython {platform.python_version()}, `datetime.fromisoformat`\t{least("read(text)", text) - least("pass", text):.1f}')
