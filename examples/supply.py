#!/usr/bin/env python3
"""supply.py PLAN [VARIABLE=VALUE ..]: runs a plan, a text or an image; each value comes in when the run waits. Then tells the goal's variables.
VALUE is a constant's name in the text, or its number.

What follows a value is traced and played again beside it, by which the steps are counted."""
import sys

from rissobarm import Plan, Refused, parse

LIMIT, TURNS = 100000, 5000


def opened(path):
    """The image of a plan, and the names of its constants; an image has none. No text has a byte 0, and every image has one."""
    with open(path, 'rb') as file:
        plan = file.read()
    if 0 in plan:
        return plan, []
    image, _, constants = parse(plan)
    return image, constants


def main():
    try:
        image, constants = opened(sys.argv[1])
        plan = Plan(image)
    except Refused as refused:
        sys.exit(str(refused))
    named = dict(enumerate(constants))
    numbers = {name: number for number, name in named.items()}
    arrivals = [word.split('=') for word in sys.argv[2:]]
    end, steps = plan.run(LIMIT)
    while end == 'waiting' and arrivals:
        variable, value = arrivals.pop(0)
        plan = Plan(image, plan.save())  # as if the night lay between
        plan.supply(int(variable), int(numbers.get(value, value)))
        print('%d steps: waiting, variable %s arrives as %s' % (steps, variable, value))
        again = Plan(image, plan.save())
        end, trace = plan.run_traced(TURNS, steps % 65536)
        steps += again.replay(trace)
    print('%d steps: %s' % (steps, end))
    for variable, value in enumerate(plan.values()):
        print('variable %d is %s' % (variable, 'open' if value is None else named.get(value, value)))


main()
