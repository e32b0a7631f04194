"""Writes two files of JSON documents, one a line: of the left documents one in a hundred is changed
on the right, one in a thousand is missing there, as many are new, and the right documents lie in
another order.

usage: make_documents.py DOCUMENTS FOLDER [rewritten]

The files are FOLDER/left.ndjson and right.ndjson, of 281 MB each for 1,000,000 documents.

With `rewritten` the members of each right document stand in another order, so that no line is one
of the left file.
"""
import json
import pathlib
import random
import sys

CITIES = (
    "Oslo",
    "Bergen",
    "Trondheim",
    "Stavanger",
    "Tromsø",
    "Bodø",
    "Ålesund",
    "Drammen",
    "Molde",
    "Hamar",
)
WORDS = (
    "birch",
    "ferry",
    "granite",
    "harvest",
    "island",
    "lantern",
    "meadow",
    "pebble",
    "saddle",
    "timber",
)
STATES = ("open", "closed", "pending")


def made_item(chance):
    """Returns an item of an order."""
    return {
        "sku": f"{chance.choice(WORDS)}-{chance.randrange(1000)}",
        "quantity": chance.randrange(1, 20),
        "price": chance.randrange(100_000) / 100,
    }


def made_document(number, chance):
    """Returns an order."""
    date = f"20{chance.randrange(10, 27)}-{chance.randrange(1, 13):02}-{chance.randrange(1, 29):02}"
    note = " ".join(chance.choice(WORDS) for _ in range(chance.randrange(5)))
    return {
        "order": {"id": f"A-{number}", "date": date, "status": chance.choice(STATES)},
        "customer": {
            "name": f"{chance.choice(WORDS)} {number % 977}",
            "city": chance.choice(CITIES),
        },
        "items": [made_item(chance) for _ in range(chance.randrange(1, 4))],
        "amount": chance.randrange(10_000_000) / 100,
        "is_paid": chance.random() < 0.5,
        "note": f'{note}, "as agreed"' if number % 50 == 0 else note or None,
    }


def changed(document, chance):
    """Returns a document with another part."""
    way = chance.randrange(4)
    if way == 0:
        return {**document, "amount": document["amount"] + 0.25}
    if way == 1:
        return {
            **document,
            "items": [*document["items"][:-1], {**document["items"][-1], "quantity": 20}],
        }
    if way == 2:
        return {**document, "customer": {**document["customer"], "city": "Narvik"}}
    return {**document, "items": [*document["items"], made_item(chance)]}


def line_of(document):
    """Returns a document as a line."""
    return json.dumps(document, ensure_ascii=False, separators=(",", ":")) + "\n"


def rewritten(document):
    """Returns a document with its members in another order."""
    return {name: document[name] for name in reversed(document)}


def main(count, folder, is_rewritten):
    """Writes both files."""
    chance = random.Random(11)
    other, gone = (set(chance.sample(range(count), count // part)) for part in (100, 1000))
    right = []
    with open(pathlib.Path(folder) / "left.ndjson", "w", encoding="utf-8") as file:
        for number in range(count + count // 1000):
            document = made_document(number, chance)
            if number < count:
                file.write(line_of(document))
            if number in other:
                document = changed(document, chance)
            if number not in gone:
                right.append(line_of(rewritten(document) if is_rewritten else document))
    chance.shuffle(right)
    with open(pathlib.Path(folder) / "right.ndjson", "w", encoding="utf-8") as file:
        file.writelines(right)


if __name__ == "__main__":
    main(int(sys.argv[1]), sys.argv[2], sys.argv[3:] == ["rewritten"])
