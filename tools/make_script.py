#!/usr/bin/env python3
"""Prints a script of one client: COUNT upserts of distinct ids in random order, then an index and one scan.

usage: make_script.py COUNT [SEED]
"""
import random
import sys


def main():
    count = int(sys.argv[1])
    chance = random.Random(int(sys.argv[2]) if len(sys.argv) > 2 else 1)
    numbers = list(range(count))
    chance.shuffle(numbers)
    print('{"gsi":1,"vbuckets":1,"clients":1}')
    for number in numbers:
        print('{"c":0,"do":"upsert","id":"id%d","doc":{"x":%d}}' % (number, chance.randrange(-count, count)))
    print('{"c":0,"do":"ddl","q":"CREATE INDEX ix ON ks(x)"}')
    print('{"c":0,"do":"scan","index":"ix"}')


main()
