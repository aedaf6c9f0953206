"""One grading of an example as a process, and how large its certificate and its bounds are; nothing by itself."""
import ctypes
import os

# A program's greatest memory is never told as less than that of the process that started it, and Python is larger than many a
# check. So a shell starts the program and ends at once, and by this option of prctl this process adopts what the shell leaves.
ADOPTS_ORPHANS = 36
START = ['/bin/sh', '-c', '"$@" &', 'sh']

BUDGET = '200000'
SMALL, LARGE = 'bounds.txt', 'large.txt'
CERT, OUTPUT = 'cert.txt', 'output'


class Process:
    """One run of the program in a folder, which grades or checks what a grading left: its status, what it wrote, its seconds of a
    processor, and the greatest memory in MB."""

    def __init__(self, program, folder, bounds, submission, command='grade'):
        words = [program, command, bounds, 'reference.py', submission, 'rules.eml', CERT]
        if command == 'grade':
            words.append(BUDGET)
            if os.path.exists(os.path.join(folder, CERT)):
                os.remove(os.path.join(folder, CERT))
        ctypes.CDLL(None).prctl(ADOPTS_ORPHANS, 1)
        shell = os.fork()
        if shell == 0:
            run_in(folder, START + words)
        os.waitpid(shell, 0)
        _, ended, used = os.wait4(-1, 0)
        self.seconds = used.ru_utime + used.ru_stime
        self.status = os.waitstatus_to_exitcode(ended)
        self.megabytes = used.ru_maxrss / 1024
        self.output = text_of(os.path.join(folder, OUTPUT))

    def first_line(self):
        return self.output.partition('\n')[0]


def run_in(folder, words):
    """Becomes the program, which writes to a file of the folder."""
    try:
        os.chdir(folder)
        os.dup2(os.open(OUTPUT, os.O_WRONLY | os.O_CREAT | os.O_TRUNC), 1)
        os.execv(words[0], words)
    finally:
        os._exit(127)


class Certificate:
    """How large the certificate in a folder is; all is 0 where there is none."""

    def __init__(self, folder):
        self.bytes = self.clauses = self.logged = self.hints = 0
        path = os.path.join(folder, CERT)
        if not os.path.exists(path):
            return
        self.bytes = os.path.getsize(path)
        formula = 0
        with open(path) as lines:
            for line in lines:
                if line.startswith('session '):
                    formula = 0
                elif line.startswith('f '):
                    formula += 1
                    self.clauses = max(self.clauses, formula)
                elif line.startswith('l '):
                    self.logged += 1
                    # (both the literals and the hints end with a 0)
                    self.hints += len(line.split(' 0')[1].split())


def text_of(path):
    with open(path) as file:
        return file.read()


def assignments(examples):
    """The names of the assignments' folders, sorted."""
    return sorted(name for name in os.listdir(examples) if os.path.exists(os.path.join(examples, name, SMALL)))


def submissions_in(folder):
    return sorted(name for name in os.listdir(folder) if name.startswith('sub-') and name.endswith('.py'))


def inputs_count(text):
    """How many inputs there are within bounds, by the text of their file."""
    count = 1
    for line in text.splitlines():
        words = line.split()
        if words[:1] == ['param']:
            count *= one_count(words[2:])
    return count


def one_count(form):
    if form[0] == 'bool':
        return 2
    low, high = map(int, form[1].split('..'))
    if form[0] == 'int':
        return high - low + 1
    if form[0] == 'list':
        least, most = map(int, form[3].split('..'))
        each = most - least + 1
    else:
        each = len(' '.join(form[3:])) - 2
    return sum(each ** length for length in range(low, high + 1))
