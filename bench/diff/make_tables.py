"""Writes two CSV files of the same columns: of the left rows one in a hundred is changed on the
right, one in a thousand is missing there, as many are new, and the right rows lie in another order.

usage: make_tables.py ROWS FOLDER      (FOLDER/left.csv and FOLDER/right.csv, 106 MB each for
                                       1,000,000 rows)
"""
import csv
import pathlib
import random
import sys

COLUMNS = ("id", "name", "city", "email", "amount", "quantity", "date", "status", "score", "note")
CITIES = (
    "Oslo",
    "Bergen",
    "Trondheim",
    "Stavanger",
    "Tromsø",
    "Bodø",
    "Ålesund",
    "Drammen",
    "Molde",
    "Hamar",
)
WORDS = (
    "birch",
    "ferry",
    "granite",
    "harvest",
    "island",
    "lantern",
    "meadow",
    "pebble",
    "saddle",
    "timber",
)
STATES = ("open", "closed", "pending")


def made_row(number, chance):
    """Returns the cells of a row."""
    note = " ".join(chance.choice(WORDS) for _ in range(chance.randrange(5)))
    if number % 50 == 0:
        note = f'{note}, "as agreed"'
    return [
        str(number),
        f"{chance.choice(WORDS)} {chance.choice(WORDS)} {number % 977}",
        chance.choice(CITIES),
        f"user{number}@example.org",
        f"{chance.randrange(1_000_000) / 100:.2f}",
        str(chance.randrange(1000)),
        f"20{chance.randrange(10, 27)}-{chance.randrange(1, 13):02}-{chance.randrange(1, 29):02}",
        chance.choice(STATES),
        f"{chance.random():.6f}",
        note,
    ]


def main(rows, folder):
    """Writes both files."""
    chance = random.Random(11)
    left = [made_row(number, chance) for number in range(rows)]
    right = [list(row) for row in left]
    for number in chance.sample(range(rows), rows // 100):
        right[number][chance.randrange(1, len(COLUMNS))] += "x"
    gone = set(chance.sample(range(rows), rows // 1000))
    right = [row for number, row in enumerate(right) if number not in gone]
    right += [made_row(rows + number, chance) for number in range(rows // 1000)]
    chance.shuffle(right)
    for name, table in (("left", left), ("right", right)):
        with open(pathlib.Path(folder) / f"{name}.csv", "w", newline="", encoding="utf-8") as file:
            writer = csv.writer(file, lineterminator="\n")
            writer.writerow(COLUMNS)
            writer.writerows(table)


if __name__ == "__main__":
    main(int(sys.argv[1]), sys.argv[2])
