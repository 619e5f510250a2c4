#!/usr/bin/env python3
"""bench.py RECORDS PLANNED HARDCODED [RUN..]: processor time of the same edits and answers with the plan and with its decisions in C (hardcoded/run.c), in turn, batch 200; the medians, their
ratio, and the machine's share. RUN are the words before a program; under an emulator the times say nothing."""
import json
import statistics
import sys
import tempfile

from world import World

TURNS = 3


def measure(program, records):
    """Seconds for the edits and for the answers, and of them the machine's."""
    with tempfile.TemporaryDirectory() as folder:
        world = World(folder, program, seed=5)
        world.edits(range(1, records + 1))
        told = world.json('work', '--once')
        world.answers(wrong=False)
        told += world.json('work', '--once')
        world.finish()
        world.verdict('bench')
        return [one['processor_seconds'] for one in told], sum(one['machine_seconds'] for one in told), told[0]['moves_made']


def main():
    records, run = int(sys.argv[1]), sys.argv[4:]
    seen = {name: [] for name in ('planned', 'hardcoded')}
    for _ in range(TURNS):
        for name, path in (('planned', sys.argv[2]), ('hardcoded', sys.argv[3])):
            seen[name].append(measure([*run, path], records))
    edits = {name: statistics.median(one[0][0] for one in all_of) for name, all_of in seen.items()}
    answers = {name: statistics.median(one[0][1] for one in all_of) for name, all_of in seen.items()}
    share = statistics.median(one[1] / sum(one[0]) for one in seen['planned'])
    print(json.dumps({'records': records, 'edit_microseconds': {name: round(1e6 * time / records, 1) for name, time in edits.items()}, 'edits_ratio': round(edits['planned'] / edits['hardcoded'], 3),
                      'answers_ratio': round(answers['planned'] / answers['hardcoded'], 3), 'machine_share': round(share, 4), 'moves_made': seen['planned'][0][2]}))


main()
