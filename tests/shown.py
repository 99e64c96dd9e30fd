"""The run that a violation shows, by the model: of the complete runs that leave the set, one with the fewest failed entries, and of those with as few the one
whose record comes first in byte order.

It comes from the model's search, which takes a plan of any size. Of a small plan all complete runs are gone through as well, and the script ends where
the two differ.
"""
import sys

from plans import flat, is_small

RECORD = 126


def record_of(run):
    """the bytes of the record area: two for each entry, then zeros"""
    return flat(run).ljust(RECORD, b'\0')


def failures(run):
    return sum(outcome == 2 for _, outcome in run)


def plainest_of_all(cells, tree, number):
    """by going through all complete runs"""
    runs = [run for run, _ in cells.Sem().complete(tree) if cells.set_of(run, tree) == number]
    return min(runs, key=lambda run: (failures(run), record_of(run)))


def shown_run(cells, file, number):
    """the entries of the run that is shown with the set of this number"""
    types, _, nodes, _ = cells.parse(bytes(file))
    tree = cells.tree_of(nodes, types)
    run = cells.plainest(tree, number)
    if cells.set_of(run, tree) != number:
        sys.exit(f'{bytes(file).hex(" ")}: the search gives {run}, which does not leave the set {number}')
    if is_small(tree) and plainest_of_all(cells, tree, number) != run:
        sys.exit(f'{bytes(file).hex(" ")}: the search gives {run} for the set {number}, all runs {plainest_of_all(cells, tree, number)}')
    return run
