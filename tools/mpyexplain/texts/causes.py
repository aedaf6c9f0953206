"""What holds of every refusal with a cause."""

CAUSES = {
    'Long': 'The file has more than 65,536 bytes, and was not read.',
    'Byte': 'The line has a character that may stand in comments alone. Everywhere else a program has plain '
            'letters, digits and signs, as on an English keyboard.',
    'Tab': 'The line begins with a tab. Lines are indented by spaces.',
    'Token': 'The line has something that is no name, number, text or sign of mPy.',
    'Indent': 'The line is indented by a number of spaces that fits none of the blocks above it.',
    'Syntax': 'The line is no statement of mPy.',
    'Block': 'The line may not stand at this place, or what belongs below it is missing.',
    'Limit': 'The program is larger than a graded program may be.',
    'Name': 'A name is used that means nothing at this place.',
    'Arity': 'A function is called with another number of arguments than it takes.',
    'Entry': 'The function that the assignment asks for is missing, or it has another number of parameters.',
    'Type': 'A value is a whole number, a truth value (True or False), a list of whole numbers or a text. mPy '
            'keeps these types apart: each name and each result has one of them, and each operator takes certain '
            'ones.',
    'Undetermined': 'Each name and each function\'s result has one type: whole number, truth value, list or text. '
                    'Nothing in the program says which one it is here.',
    'Shared': 'Two names could stand for one list here. In Python a change of it by one name would be seen by the '
              'other, so mPy asks for a copy: v[:] is a copy of the list v.',
    'ResultType': 'Your function gives a value of another type than the assignment asks for.',
    'TooLarge': 'Your function can be read, but together with all corrections of the assignment it is too large '
                'to be searched. That says nothing about whether it is right.',
}
