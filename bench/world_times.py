#!/usr/bin/env python3
"""Times a world that plays 12,500 to 100,000 requests of all kinds over 16 lanes: each is given to its lane, and then the oldest
event is offered until none is outstanding.

    python3 bench/world_times.py [PROGRAM]

PROGRAM is that of the crate world_bench. The mix is that of `run_times.py`. For each size: requests, seconds, seconds per 1,000
requests, peak memory in MB, and which share the dashboards take, by the time of the same requests with each dashboard in the place of a
request for a customer's counts. The last line compares the time per request of the largest size with that of the smallest, with and
without dashboards."""

import os
import sys

from run_times import timed, workload

SIZES = [12_500, 25_000, 50_000, 100_000]


def texts(size, dashboards=True):
    """the records of a workload as the texts of requests"""
    lines = []
    for record in workload(size, dashboards).decode().splitlines():
        caller, number, *words = record.split(',')
        lines.append(' '.join([f'{caller}.{number}', *words]) + '\n')
    return ''.join(lines).encode()


def main():
    here = os.path.dirname(os.path.abspath(__file__))
    program = sys.argv[1] if len(sys.argv) > 1 else os.path.join(here, '..', 'crates', 'world_bench', 'out', 'world_bench')
    print('requests   seconds   s/1,000   peak MB   dashboards')
    each = []
    without = []
    for size in SIZES:
        took, peak = timed([program], texts(size), 0)
        plain, _ = timed([program], texts(size, dashboards=False), 0)
        each.append(took / size)
        without.append(plain / size)
        print(f'{size:8}   {took:7.2f}  {1000 * took / size:8.5f}  {peak:8.1f}   {100 * (took - plain) / took:5.1f} %')
    print(f'time per request, largest to smallest: {each[-1] / each[0]:.2f}, without dashboards {without[-1] / without[0]:.2f}')


if __name__ == '__main__':
    main()
