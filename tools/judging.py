"""How a run of a judge goes: what it is asked, and what it says of a difference and of a run without one. A judge of some calls has its own draws and figures."""
import argparse, faulthandler, sys

class Difference(Exception): pass

def counted(counts): return ', '.join(f'{what}: {count:,}' for what, count in sorted(counts.items()))

def changed(due, told, area):
    """what differs of the memory that a result area lies in, from that place on"""
    places = [at - area for at, (x, y) in enumerate(zip(due, told)) if x != y]
    return f'{len(places)} bytes differ, the first {places[0]} from where the area begins' if places else 'the memory is as it is due'

def conduct(about, cases, least, judge_of, print_difference, print_figures, judged=lambda judge: judge.kinds.total(), unseen=lambda judge: [], flags=()):
    """Runs the judge of a library, a seed and flags, each a name and what it does, on at least so many cases, which have that name; it must have seen every answer."""
    parser = argparse.ArgumentParser(description=about)
    parser.add_argument('--seed', type=int, default=1)
    parser.add_argument('--' + cases, dest='least', type=int, default=least, help=f'how many {cases} are judged at the least')
    for name, does in flags: parser.add_argument('--' + name, action='store_true', help=does)
    parser.add_argument('library')
    asked = parser.parse_args()
    # so that a library that breaks down is told with the call
    faulthandler.enable()
    judge = judge_of(asked.library, asked.seed, *(getattr(asked, name) for name, _ in flags))
    try: judge.run(asked.least)
    except Difference as found:
        print_difference(judge, *found.args)
        sys.exit(f'a difference, with seed {asked.seed}, after {judged(judge):,} {cases}')
    print_figures(judge)
    if missed := unseen(judge): sys.exit('never answered: ' + ', '.join(missed))
    print('no difference')
