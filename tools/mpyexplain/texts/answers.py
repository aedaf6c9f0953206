"""What is told of the other answers, and of the files of a teacher."""
from .causes import CAUSES

FIRST = ('This is the first fault that was found. There may be others, and whether the function is right was not '
         'looked at. mPy is the part of Python that is graded here; docs/language.md describes it.')
TEACHERS = 'The grading could not begin because of a file that is your teacher\'s: {what} is refused ({name}, {place}).'
OF_BOUNDS = {'Long', 'Byte', 'Syntax', 'Limit', 'BoundRange'}
OF_REFERENCE = set(CAUSES) - {'ResultType', 'TooLarge'} | {'EmptyReference'}
OF_RULES = {'Long', 'Byte', 'Token', 'Limit', 'Syntax', 'RuleTwice', 'RuleMeta', 'RulePrime', 'Name', 'Arity'}

FAILS = 'Your function does not give what is wanted yet: {call} gives {gives}, and {wanted} is wanted.'
FAULT = ('Your function does not give what is wanted yet: {call} stops with the fault {fault}, and {wanted} is '
         'wanted. {text}')
FAULTS = {
    'Divisor': 'The fault says that a number is divided by 0, by // or by %.',
    'Index': 'The fault says that an element is taken at a place that the list or text does not have. The places '
             'are 0 to the length less 1, and -1, -2 and so on from the end.',
    'Unset': 'The fault says that a name is used before it has a value.',
    'Power': 'The fault says that the number behind ** is negative.',
    'Step': 'The fault says that the step of a range is 0.',
    'NoValue': 'The fault says that a function ends without a return that gives a value.',
    'Overflow': 'That is a limit of the assignment: numbers have {width} bits, so they go from {least} to '
                '{greatest}, and a number on the way is outside. On paper the function may be right there; here '
                'each number that it makes must fit.',
    'Turns': 'That is a limit of the assignment: a loop makes at most {turns} turns each time it is entered, and '
             'one would make more. On paper the function may be right there, with more turns; or the loop never '
             'ends.',
    'Depth': 'That is a limit of the assignment: at most {depth} calls may be open at once, and there would be '
             'more. On paper the function may be right there, with more calls; or the calls never end.',
    'Length': 'That is a limit of the assignment: a list has at most {cap} elements, and a text {cap} characters, '
              'and one would have more. The list of a range counts too. On paper the function may be right there; '
              'here each list and text that it makes must fit.',
}
BY_LIMITS = ('Overflow', 'Turns', 'Depth', 'Length')
CORRECTION = ('One correction makes it give what is wanted on every input of the assignment (cost {cost}, and no '
              'cheaper one does):')
CORRECTIONS = ('{number} corrections together make it give what is wanted on every input of the assignment (cost '
               '{cost}, and no cheaper ones do):')
CHANGED = 'Your program, corrected: - is a line of yours, and + the line in its place:'
PROGRAM = 'The corrected program:'
NONE = ('None of the corrections that the teacher expected mends it, and no set of them does. That does not say '
        'how far it is from a right one: a small mistake of another kind gets this answer too.')
CORRECT = ('Your function is correct: on every input of the assignment for which the teacher\'s function gives a '
           'value, it gives the same. Other inputs were not tried, and how it is written was not judged.')
CORRECT_PRINTED = ('Your function is correct: on every input of the assignment for which the teacher\'s function ends '
                   'without a fault, it gives the same and prints the same. Other inputs were not tried, and how it '
                   'is written was not judged.')
SPENT = 'The grader gave up after {budget} steps.'
SPENT_OPEN = 'Nothing is known of your function: it may be right, and it may be wrong.'
SPENT_WRONG = ('As it stands your function does not give what is wanted on some input, and corrections of a cost '
               'below {at_least} do not mend it. Whether others do is not known.')
