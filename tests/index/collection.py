#!/usr/bin/env python3
"""collection.py [RECORDS]: a sample collection as lines of JSON: books, newspapers and rights notices, with texts made up here."""
import json
import random
import sys

from world import words

PLACES = 'Bergen Tromsø Ærø Łódź Århus Zürich Oslo Brno'.split()
PAPERS = 'Aftenblad Tidende Posten Dagen Kurier Morgen'.split()


def record(r, number):
    paper = r.random() < .3
    place = r.choice(PLACES)
    title = '%s %s, %d.%d.%d' % (place, r.choice(PAPERS), r.randint(1, 28), r.randint(1, 12), r.randint(1880, 1940)) if paper else words(r, 4).capitalize() + ', ' + place
    return {'id': number, 'title': title, 'body': '' if paper else words(r, 120), 'kind': 'paper' if paper else 'book', 'rights': 'notice' if r.random() < .1 else 'free'}


def main():
    r = random.Random(7)
    for number in range(1, int(sys.argv[1]) + 1 if len(sys.argv) > 1 else 2001):
        print(json.dumps(record(r, number), ensure_ascii=False))


if __name__ == '__main__':
    main()
