"""Sources with many mutations at once, of which a run chooses one by the variable MUTANT.

The function that a mutation changes gets a changed copy beside it, and calls that copy if `mutant()` returns the mutation's
number. So one build tries all mutations. The layout is that of `rt fmt`: a function ends at a `}` below its first letter.
"""
import re

FUNCTION = re.compile(r'( *)(?:pub(?:\([a-z]+\))? )?((?:const |unsafe )*)fn (\w+)')
ASKED = '''
/// The number of the mutation that runs, 0 for none.
pub fn mutant() -> u64 {
    0
}
'''
# The body of `mutant` in the module of a program.
ANSWER = b'''  %text = call ptr @getenv(ptr @mutant.name)
  %none = icmp eq ptr %text, null
  br i1 %none, label %zero, label %read
zero:
  ret i64 0
read:
  %number = call i64 @strtoul(ptr %text, ptr null, i32 10)
  ret i64 %number
}
'''
NEEDED = b'''@mutant.name = private unnamed_addr constant [7 x i8] c"MUTANT\\00"
declare ptr @getenv(ptr)
declare i64 @strtoul(ptr, ptr, i32)
'''


class Unfit(Exception):
    """Why a mutation can't be chosen at run time."""


def changes_in(edit):
    """The changes of a mutation's file: the source's name, the old text and the new one."""
    found, name, old = [], None, None
    for line in edit.splitlines():
        word, _, text = line.partition(': ')
        if word == 'file':
            name = text.strip()
        elif word == 'old':
            old = text
        elif word.startswith('new'):
            found.append((name, old, text))
    return found


def function_around(lines, place):
    """The places of the first and the last line of the function around a line."""
    for first in range(place, -1, -1):
        found = FUNCTION.match(lines[first])
        if found:
            last = next((at for at in range(first, len(lines)) if lines[at] == found[1] + '}'), -1)
            if last >= place:
                return first, last
            break
    raise Unfit('it is not inside of a function')


def body_of(lines, first):
    """The place of the line that opens the body: a `{` of its own after clauses, or the end of the signature."""
    indent = FUNCTION.match(lines[first])[1]
    for at in range(first, len(lines)):
        if lines[at] == indent + '{':
            return at
        if lines[at].endswith(' {') and (at == first or lines[at].startswith((indent + ')', indent + 'where'))):
            return at
    raise Unfit('its function has no body')


def split_list(text):
    """The parts of a list in brackets, up to the bracket that closes it."""
    depth, parts, part = 0, [], ''
    for letter in text:
        is_arrow = letter == '>' and part.endswith('-')
        depth += (letter in '(<[') - (letter in ')>]' and not is_arrow)
        if depth == 0:
            break
        if letter == ',' and depth == 1:
            parts.append(part)
            part = ''
        elif part or depth > 1 or letter not in '(<':
            part += letter
    return [it.strip() for it in [*parts, part] if it.strip()], len(''.join(parts)) + len(parts) + len(part) + 1


def call_of(head, twin, is_method):
    """The call of the copy with the function's own arguments."""
    rest = head[head.index('fn '):].split(None, 1)[1].lstrip('_' + ALPHABET)
    if rest.startswith('<'):
        _, length = split_list(rest)
        rest = rest[length + 1:]
    parameters, _ = split_list(rest)
    has_self = bool(parameters) and re.match(r"(&\s*('\w+\s+)?)?(mut )?self\b", parameters[0]) is not None
    names = [re.match(r'(?:mut )?(\w+)\s*:', it) for it in parameters[has_self:]]
    if not all(names):
        raise Unfit('a parameter is a pattern')
    before = 'self.' if has_self else 'Self::' if is_method else ''
    return '%s%s(%s)' % (before, twin, ', '.join(it[1] for it in names))


ALPHABET = 'abcdefghijklmnopqrstuvwxyzABCDEFGHIJKLMNOPQRSTUVWXYZ0123456789'


def owner_of(lines, first):
    """The place of the line that begins the impl or trait around a method, or None."""
    indent = FUNCTION.match(lines[first])[1]
    if not indent:
        return None
    return next((at for at in range(first, -1, -1) if re.match('%s(unsafe )?(impl|(pub )?trait|mod)\\b' % indent[4:], lines[at])),
                None)


def own_impl(lines, at):
    """The head of an impl without its trait, if it has one: a copy can't stand among the trait's methods."""
    end = next(place for place in range(at, len(lines)) if lines[place].endswith('{'))
    text = re.sub(r'\s+', ' ', ' '.join(lines[at:end + 1]))
    if ' for ' not in text:
        return None
    generics, of = '', text[text.index(' for ') + 5:]
    if text.startswith('impl<'):
        names, length = split_list(text[4:])
        generics = text[4:length + 5]
        if not all(re.search(r'%s\b' % re.escape(re.match(r"'?\w+", it)[0]), of.split(' where ')[0]) for it in names):
            raise Unfit('its impl has a parameter that the type has not')
    return 'impl%s %s' % (generics, of)


def additions(text, lines, changes, number):
    """What makes a mutation a choice: pairs of a line's place and what comes after that line."""
    if any(text.count(old) != 1 for _, old, _ in changes):
        raise Unfit('its text does not stand there once')
    spans = {function_around(lines, text[:text.index(old)].count('\n')) for _, old, _ in changes}
    if len(spans) != 1:
        raise Unfit('it changes more than one function')
    first, last = spans.pop()
    indent, kind, name = FUNCTION.match(lines[first]).groups()
    if 'const' in kind:
        raise Unfit('it changes a const fn')
    twin = '%s_mutant_%d' % (name, number)
    copy = '\n'.join(lines[first:last + 1])
    for _, old, new in changes:
        copy = copy.replace(old, new)
    copy = re.sub(r'^( *)(?:pub(?:\([a-z]+\))? )?((?:unsafe )*)fn \w+', r'\1\2fn ' + twin, copy, count=1)
    start, owner = body_of(lines, first), owner_of(lines, first)
    call = call_of(' '.join(lines[first:start + 1]), twin, owner is not None)
    guard = '%s    if crate::mutant() == %d { return %s; }' % (indent, number, call)
    if owner is not None and 'trait' in lines[owner].split('{')[0].split('<')[0]:
        raise Unfit('it changes a method of a trait')
    head = own_impl(lines, owner) if owner is not None else None
    if head is None:
        return [(start, guard), (last, copy)]
    end = next(at for at in range(last, len(lines)) if lines[at] == '}')
    return [(start, guard), (end, '%s\n%s\n}' % (head, copy))]


def with_choices(text, mutations):
    """The text of a source in which each mutation can be chosen, and why some can't be, by their numbers."""
    lines = text.split('\n')
    after, unfit = {}, {}
    for number, changes in mutations:
        try:
            for place, added in additions(text, lines, changes, number):
                after.setdefault(place, []).append(added)
        except Unfit as why:
            unfit[number] = str(why)
    return '\n'.join('\n'.join([line, *after.get(at, [])]) for at, line in enumerate(lines)), unfit


def with_answers(module):
    """The module of a program whose functions `mutant` read the variable."""
    made, count = re.subn(rb'(?m)^(define [^\n]*@"[^"]*::mutant"\([^\n]*\{\n)(?:[^}][^\n]*\n)*\}\n', lambda it: it[1] + ANSWER, module)
    return made + NEEDED if count else made
