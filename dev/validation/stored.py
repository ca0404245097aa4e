"""The numbers of rows that were measured, kept beside this file: `ROW.json` has the peers' versions, the date, and the numbers."""
import datetime
import json
import os

HERE = os.path.dirname(os.path.abspath(__file__))


def path(row):
    return os.path.join(HERE, f'{row}.json')


def load(row):
    """What is stored of a row, or None."""
    if not os.path.exists(path(row)):
        return None
    with open(path(row), encoding='utf-8') as file:
        return json.load(file)


def save(row, peers, numbers):
    """Stores a row; `peers` are the versions of all that it was measured with."""
    kept = {'peers': peers, 'date': datetime.date.today().isoformat(), 'numbers': numbers}
    with open(path(row), 'w', encoding='utf-8') as file:
        json.dump(kept, file, indent=1, sort_keys=True)
        file.write('\n')
    return kept
