"""Adds up the balances of a file of JSON lines, as decimal numbers, and counts the records that have none: total.py FILE"""
import json
import sys
from decimal import Decimal

total, without = Decimal(0), 0
with open(sys.argv[1], encoding="utf-8") as file:
    for line in file:
        balance = json.loads(line, parse_float=Decimal)["BALANCE"]
        if isinstance(balance, dict):
            without += 1  # the bytes are no number, and stand as {"hex": ..}
        else:
            total += balance
print(total, without)
