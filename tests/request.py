"""What is asked of the grader."""

SOURCES = ('b.txt', 'ref.py', 'sub.py', 'rules.eml')
WORDS = ('grade',) + SOURCES + ('cert.txt', '200000')
MOST_TRIES = 1000000


class Request:
    """The words of the command line, and the files by their names."""

    def __init__(self, words, files):
        self.words = list(words)
        self.files = dict(files)

    def renamed(self, front):
        """The same, with names that begin so in the place of the sources' names."""
        names = {name: front + name for name in self.files}
        return Request([names.get(word, word) for word in self.words], {names[name]: text for name, text in self.files.items()})
