#!/usr/bin/env python3
"""Times how texts of bodies are written and read: a million of mixed kinds, with 1 to 32 lines.

    python3 bench/text_times.py [PROGRAM]

PROGRAM is that of the crate text_bench. It prints MB/s each way, without the time that the program takes to start and to
read each text once."""

import os
import random
import subprocess
import sys
import time

TEXTS = 1_000
TIMES = 1_000
ROUNDS = 3


def lines(draw, count):
    """so many lines by rising key, and what they cost"""
    products = sorted(draw.sample(range(1_000), count))
    texts, total = [], 0
    for product in products:
        quantity, price = 1 + draw.randrange(1_000), draw.randrange(10_000)
        freight, voucher = draw.randrange(500), draw.randrange(2_000)
        total += price * quantity + freight - min(voucher, price * quantity)
        texts.append(f'5:{product}:{quantity}:{price}:{freight}:{voucher}')
    return ';'.join(texts), total


def body(draw, place):
    """the text of a body"""
    number, customer = draw.randrange(100_000), draw.randrange(100_000)
    joined, total = lines(draw, 1 + place % 32)
    kinds = [
        f'changed 5:{place} {number} created {draw.randrange(10_000)} {draw.randrange(500)}',
        f'reserve 7.{number} {customer} {joined}',
        f'stock_confirmed 7.{number} {customer} {joined}',
        f'invoice 7.{number} {customer} {joined} {total}',
        f'confirmed 7.{number} {customer} {joined} {total}',
        f'failed 7.{number} {customer} over_limit',
        f'ended 7.{number} whole {total}',
        f'shipped 7.{number}',
        'delivered ' + ';'.join(f'7.{number}:{customer}:5:{item}' for item in range(1 + place % 32)),
        f'asked 7.{number} line {customer} 5 {place} 3 100',
        f'told 7.{number} view {number} {total % 1_000_000_000} 50',
        f'told 7.{number} dashboard 3 1 {total} 7.{number}:{place}:2:{total}:shipped',
    ]
    return kinds[place % len(kinds)]


def seconds(program, work, texts):
    """the least seconds that the program takes, and what it prints"""
    best, printed = None, ''
    for _ in range(ROUNDS):
        start = time.perf_counter()
        done = subprocess.run([program, work, str(TIMES)], input=texts, capture_output=True, check=True)
        taken = time.perf_counter() - start
        best = taken if best is None else min(best, taken)
        printed = done.stdout.decode().strip()
    return best, printed


def main():
    here = os.path.dirname(os.path.abspath(__file__))
    program = sys.argv[1] if len(sys.argv) > 1 else os.path.join(here, '../crates/text_bench/out/text_bench')
    draw = random.Random(1)
    texts = ''.join(body(draw, place) + '\n' for place in range(TEXTS)).encode()
    idle, _ = seconds(program, 'nothing', texts)
    for work in ['write', 'read']:
        taken, printed = seconds(program, work, texts)
        size = int(printed) / 1e6
        print(f'{work:5}  {TEXTS * TIMES:,} bodies  {size:8.1f} MB  {taken - idle:6.2f} s  {size / (taken - idle):7.1f} MB/s')


if __name__ == '__main__':
    main()
