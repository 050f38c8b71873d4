"""How many entries there are of each item, and how many pieces: python3 items.py orders.db"""
import json
import sqlite3
import sys
from collections import Counter

entries, pieces = Counter(), Counter()
database = sqlite3.connect(sys.argv[1], timeout=60)
for (fields,) in database.execute("SELECT fields FROM entries"):
    order = dict(json.loads(fields))
    entries[order["item"]] += 1
    pieces[order["item"]] += int(order["pieces"])
database.close()
for item in sorted(entries):
    print(f"{item}|{entries[item]}|{pieces[item]}")
