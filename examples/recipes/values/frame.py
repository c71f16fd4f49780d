"""Adds up the balances of a csv of cobconv by pandas, as decimal numbers, and counts the records that have none: frame.py FILE"""
import sys
from decimal import Decimal

import pandas

# As texts, so that nothing is guessed: a name "NA" is a name.
frame = pandas.read_csv(sys.argv[1], dtype=str, keep_default_na=False)
balances = frame["BALANCE"]
numbers = balances[~balances.str.startswith("?")].map(Decimal)
print(numbers.sum(), len(balances) - len(numbers))
