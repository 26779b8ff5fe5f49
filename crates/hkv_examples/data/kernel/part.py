"""part.py SPEC PROPERTY ..: the specification with these properties alone. What holds of a part whose properties keep each
other is true of the whole; a question of a part is smaller."""
import re
import sys


def main():
    path, *wanted = sys.argv[1:]
    with open(path) as file:
        head, *functions = re.split(r'(?m)^(?=def )', file.read())
    names = [re.match(r'def (\w+)', function)[1] for function in functions]
    unknown = set(wanted) - set(names)
    if unknown:
        sys.exit(f'{", ".join(sorted(unknown))}: no property')
    kept = [function for name, function in zip(names, functions) if not name.startswith('prop_') or name in wanted]
    sys.stdout.write(head + ''.join(kept))


main()
