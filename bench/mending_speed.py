#!/usr/bin/env python3
"""Times grading all submissions of the examples by the top call, beside the plain model and beside whole processes.

    MODEL=PATH bench/mending_speed.py [PROGRAM]

PROGRAM is crates/grader_cli/out/grader_cli unless it is given. MODEL is the path of the model's command line; its modules
lie beside it. For each assignment: how many submissions and inputs it has, how many selections there are to try over all
submissions that aren't refused, and seconds. Those of the call are of fetching, reading, grading and reporting in one
process of grading/, summed and the greatest; those of the model are of reading and grading in this process, once; the
ratio is between these two. Those of the program are of whole processes. Each time is the least of several runs.
"""
import os
import subprocess
import sys
import tempfile
import time

from built import Built
from least_time import least_time

RUNS = 3
CALLS = 20
SOURCES = ('bounds.txt', 'reference.py', None, 'rules.eml')
STAGE = 6


def words_for(submission):
    return ['grade', 'bounds.txt', 'reference.py', submission, 'rules.eml', 'cert.txt', '200000']


def by_call(program, folder, submission):
    """The seconds of one call, by a process that makes several."""
    words = [program, str(CALLS)] + words_for(submission)
    told = [subprocess.run(words, cwd=folder, capture_output=True, text=True, check=True).stdout for _ in range(RUNS)]
    return min(int(it.split()[0]) for it in told) / CALLS / 1e6


def by_program(program, folder, submission):
    words = [program] + words_for(submission)
    return least_time(lambda: subprocess.run(words, cwd=folder, capture_output=True), RUNS)


def by_model(grade, choices, folder, submission):
    """The seconds, and the numbers of inputs and of selections; 0 of each where the model refuses the submission."""
    raws = []
    for name in SOURCES:
        with open(os.path.join(folder, name or submission), 'rb') as file:
            raws.append(file.read())
    before = time.perf_counter()
    try:
        task = grade.read_task(raws, STAGE)
    except grade.Refused:
        return time.perf_counter() - before, 0, 0
    grade.Grader(task).solve()
    return time.perf_counter() - before, task.bounds.count(), choices(task.tree)


def main():
    program = os.path.realpath(sys.argv[1] if len(sys.argv) > 1 else 'crates/grader_cli/out/grader_cli')
    path = os.environ.get('MODEL')
    if not path:
        sys.exit('MODEL is not set')
    sys.path.insert(0, os.path.dirname(os.path.realpath(path)))
    sys.setrecursionlimit(100000)
    import grade
    from rewrite import choices
    here = os.path.join(os.path.dirname(os.path.realpath(__file__)), '../examples')
    print('%-12s %11s %7s %11s %9s %9s %9s %8s %9s' % (
        'assignment', 'submissions', 'inputs', 'selections', 'call', 'slowest', 'model', 'ratio', 'program'))
    whole, whole_model, whole_program = 0, 0, 0
    with tempfile.TemporaryDirectory() as work:
        caller = Built(work, 'grading', ['grade_io', 'grade_top']).program
        for name in sorted(os.listdir(here)):
            folder = os.path.join(here, name)
            if not os.path.exists(os.path.join(folder, 'bounds.txt')):
                continue
            submissions = sorted(file for file in os.listdir(folder) if file.startswith('sub-') and file.endswith('.py'))
            calls = [by_call(caller, folder, submission) for submission in submissions]
            processes = sum(by_program(program, folder, submission) for submission in submissions)
            model = [by_model(grade, choices, folder, submission) for submission in submissions]
            seconds = sum(it[0] for it in model)
            whole, whole_model, whole_program = whole + sum(calls), whole_model + seconds, whole_program + processes
            print('%-12s %11d %7d %11d %9.4f %9.4f %9.3f %8.1f %9.3f' % (
                name, len(submissions), max(it[1] for it in model), sum(it[2] for it in model), sum(calls), max(calls), seconds,
                seconds / sum(calls), processes), flush=True)
    print('%-12s %11s %7s %11s %9.4f %9s %9.3f %8.1f %9.3f' % (
        'all', '', '', '', whole, '', whole_model, whole_model / whole, whole_program))


if __name__ == '__main__':
    main()
