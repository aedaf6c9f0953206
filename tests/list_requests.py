"""Random requests of `all`, which lists every cheapest correction; `compare.py` and `lists.py` take them from here.

Most are small programs of a first course with one to three mistakes, and for each a rule that takes it back in several ways that make
the same value; other rules make the same programs once more. The others are sources of a request of `grade`.
"""
import formula_requests
import rule_requests
from print_requests import as_printing, compared
from request import SOURCES, Request

# Rules by which many selections cost the same, and make the same program.
SAME = (('return $a', 'return {$a + 1, 1 + $a}'), ('return $a', "return {$a' + 1, $a' + 1}"), ('$n', '{0, 1, $n + 1, 1}'),
        ('$v', '{?$v, $v + 0}'), ('$a', '$a'), ('$a0 + $a1', "{$a1' + $a0', $a0' + $a1'}"), ('$n', '1'))
# Rules that take a mistake back, and more that cost the same; some offer a term twice.
COMPARED = (('$a0 $c $a1', "$a0' {<, <=, >, >=, ==, !=} $a1'"), ('$a0 $c $a1', '{$a0 <= $a1, $a1 >= $a0, $a0 < $a1 + 1}'),
            ('$a0 $c $a1', '{$a0 < $a1, $a1 > $a0, $a0 + 1 <= $a1, $a0 != $a1}'), ('$a0 $c $a1', "{not $a0 $c $a1, $a1 $c $a0}"),
            ('$a0 $c $a1', '$a0 {==, !=, ==, >, >=} $a1'))
COUNTED = (('$n', '{0, 1, 2, 3, 4}'), ('$n', '{$n + 1, $n - 1, 1 + $n}'), ('$n', '{$n - 1, 0, 1, $n + 1}'), ('$n', '{1 - 1, 0, 2 - 1}'))
MIXED = (('$a0 $o $a1', "$a0' {+, -, *} $a1'"), ('$a0 $o $a1', '{$a0 + $a1, $a1 + $a0, $a0 - $a1, $a0 * $a1, $a1 * $a0}'))
JOINED = (('$a0 and $a1', "{$a0' or $a1', $a1' or $a0'}"), ('$a0 or $a1', "{$a0' and $a1', $a1' and $a0'}"))
TURNED = (('True', '{False, not True}'), ('False', '{True, not False}'))
# Each mistake with the rules for it.
MISTAKES = (('<=', '<', COMPARED), ('< ', '<= ', COMPARED), ('> ', '>= ', COMPARED), ('> ', '< ', COMPARED), ('==', '!=', COMPARED),
            ('!=', '==', COMPARED), (' + ', ' - ', MIXED), (' - ', ' + ', MIXED), (' * ', ' + ', MIXED), (' and ', ' or ', JOINED),
            (' or ', ' and ', JOINED), ('True', 'False', TURNED), ('False', 'True', TURNED), ('0', '1', COUNTED), ('1', '0', COUNTED),
            ('2', '1', COUNTED), ('1', '2', COUNTED))
MOSTS = ('1', '1', '2', '2', '3', '5', '100')
FORMS = ('0', '007', '101', '', '-1', '1.', '200000')


def a_mended(rng):
    """The sources of a program with mistakes and rules for them."""
    params, reference = rng.choice(rule_requests.COURSE)
    bounds = rule_requests.HEAD + params
    if rng.random() < 0.25:
        bounds, reference = compared(rng, bounds), as_printing(rng, reference, rng.random() < 0.5)
    submission, rules = reference, []
    for _ in range(rng.choice((1, 1, 2, 2, 3))):
        possible = [it for it in MISTAKES if it[0] in submission[submission.find(':'):]]
        if not possible:
            break
        old, new, among = rng.choice(possible)
        places = [place for place in range(submission.find(':'), len(submission)) if submission.startswith(old, place)]
        place = rng.choice(places)
        submission = submission[:place] + new + submission[place + len(old):]
        rules.append(rng.choice(among))
    rules += [rng.choice(SAME + COMPARED + COUNTED + MIXED) for _ in range(rng.choice((0, 0, 1, 1, 2)))]
    rng.shuffle(rules)
    costs = rng.choice((('',), ('',), ('', ' cost 2'), (' cost 1', ' cost 2', ' cost 3')))
    text = ''.join('rule r%d%s: %s => %s\n' % (number, rng.choice(costs), *rule) for number, rule in enumerate(rules))
    return bounds, reference, submission, text


def some_files(rng):
    """The sources, or those of another request of `grade`; or that request, where it isn't of its form."""
    if rng.random() < 0.7:
        return dict(zip(SOURCES, (text.encode() for text in a_mended(rng)))), None
    asked = (rule_requests if rng.random() < 0.7 else formula_requests).a_request(rng)
    files = dict(asked.files)
    if len(asked.words) != 7 or not set(SOURCES) <= set(files):
        return files, asked
    if rng.random() < 0.3:
        files['rules.eml'] = ''.join(rule_requests.a_rule(rng, number, SAME) for number in range(rng.choice((1, 2, 2, 3)))).encode()
    return files, None


def a_request(rng):
    """A request of `all`; a few have words of another form."""
    files, asked = some_files(rng)
    if asked:
        return asked
    most = rng.choice(FORMS) if rng.random() < 0.03 else rng.choice(MOSTS)
    return Request(('all',) + SOURCES + (most, '20000'), files)
