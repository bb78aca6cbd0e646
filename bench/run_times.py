#!/usr/bin/env python3
"""Times `run 1 0` on valid workloads of 16,384 to 262,144 records of all kinds over 16 lanes, with many customers and products.

    python3 bench/run_times.py [PROGRAM]

Of 100 requests after the first ones, which create products, stock them and set cards, 40 set a line, 25 are checkouts, 10 prices,
3 deletions, 3 creations, 10 deliveries and 9 dashboards. For each size: records, seconds, seconds per 1,000 records, MB/s, peak
memory; which share of the time the same records take where the last one is bad, so that all of them are read by csv and their
fields, and none is answered; and which share the dashboards take, by the time of the same records with each dashboard in the place
of a request for a customer's counts. The next lines compare the time per record of the largest size with that of the smallest, with
and without dashboards. The last lines set lines in carts that hold 1, 8 and 32 of them."""

import os
import random
import resource
import subprocess
import sys
import tempfile
import time

SIZES = [16_384, 32_768, 65_536, 131_072, 262_144]
ROUNDS = 3


SELLERS = 64


def workload(size, dashboards=True):
    """requests of 16 callers, as many of each lane as it keeps, of all kinds"""
    draw = random.Random(size)
    products = max(2, size // 4096)
    customers = max(16, size // 64)
    first = [f'create,{seller},{product},{100 + draw.randrange(9900)},{draw.randrange(500)}'
             for seller in range(SELLERS) for product in range(products)]
    first += [f'stock,{seller},{product},1000000' for seller in range(SELLERS) for product in range(products)]
    first += [f'card,{customer},1000000000000' for customer in range(customers)]
    numbers = [0] * 16
    lines = []
    for place in range(size):
        product = f'{draw.randrange(SELLERS)},{draw.randrange(products)}'
        customer = draw.randrange(customers)
        kind = draw.randrange(100)
        if place < len(first):
            rest = first[place]
        elif kind < 40:
            rest = f'line,{customer},{product},{1 + draw.randrange(10)},{draw.randrange(500)}'
        elif kind < 65:
            rest = f'checkout,{customer}'
        elif kind < 75:
            rest = f'price,{product},{100 + draw.randrange(9900)}'
        elif kind < 78:
            rest = f'delete,{product}'
        elif kind < 81:
            rest = f'create,{product},{100 + draw.randrange(9900)},{draw.randrange(500)}'
        elif kind < 91:
            rest = 'deliver'
        elif dashboards:
            rest = f'dashboard,{draw.randrange(SELLERS)}'
        else:
            rest = f'customer,{draw.randrange(SELLERS)}'
        caller = place % 16
        lines.append(f'{caller},{numbers[caller]},{rest}\n')
        numbers[caller] += 1
    return ''.join(lines).encode()


def carts(size, held):
    """requests that fill carts with so many lines, and set these lines again"""
    lines = [f'0,{product},create,5,{product},1,0\n' for product in range(held)]
    numbers = [held] + [0] * 15
    for place in range(size - held):
        caller = place % 16
        customer, product = place // 64, place % held
        lines.append(f'{caller},{numbers[caller]},line,{customer},5,{product},{1 + place % 1000},0\n')
        numbers[caller] += 1
    return ''.join(lines).encode()


def timed(command, text, status):
    """the least time of some rounds, and the peak memory of all children so far in MB"""
    with tempfile.TemporaryFile() as file:
        file.write(text)
        best = None
        for _ in range(ROUNDS):
            file.seek(0)
            begin = time.perf_counter()
            done = subprocess.run(command, stdin=file, stdout=subprocess.DEVNULL, stderr=subprocess.DEVNULL)
            took = time.perf_counter() - begin
            if done.returncode != status:
                sys.exit(f'{command[0]} ended with {done.returncode}, not {status}')
            best = took if best is None else min(best, took)
    return best, resource.getrusage(resource.RUSAGE_CHILDREN).ru_maxrss / 1024


def main():
    here = os.path.dirname(os.path.abspath(__file__))
    program = sys.argv[1] if len(sys.argv) > 1 else os.path.join(here, '..', 'crates', 'market', 'out', 'market')
    command = [program, 'run', '1', '0']
    print('records    seconds   s/1,000   MB/s    peak MB   reading   dashboards')
    each = []
    without = []
    for size in SIZES:
        text = workload(size)
        took, peak = timed(command, text, 0)
        reading, _ = timed(command, text + b'0,0,paint\n', 3)
        plain, _ = timed(command, workload(size, dashboards=False), 0)
        each.append(took / size)
        without.append(plain / size)
        print(f'{size:7}   {took:8.3f}  {1000 * took / size:8.5f}  {len(text) / took / 1e6:6.1f}  {peak:8.1f}   {100 * reading / took:5.1f} %'
              f'   {100 * (took - plain) / took:5.1f} %')
    print(f'time per record, largest to smallest: {each[-1] / each[0]:.2f}, without dashboards {without[-1] / without[0]:.2f}')
    for held in [1, 8, 32]:
        text = carts(SIZES[2], held)
        took, _ = timed(command, text, 0)
        print(f'carts of {held:2} lines: {1000 * took / SIZES[2]:8.5f} s per 1,000 records')


if __name__ == '__main__':
    main()
