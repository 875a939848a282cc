"""Makes the calls of gl.py that its client doesn't write. Each issues one command, of which the row
of command_table.py has all that is to be known: the words that the call takes, and the kinds of the
numbers that they become.
"""
import inspect

from command_table import ROWS


def make_call(row, conversions):
    """The call of a row: its arguments, by kinds of fields converted, are the command's numbers."""
    name, _, words = row.call.rstrip(")").partition("(")
    words = words.split(", ") if words else [field.name for field in row.fields]
    has_others = any(field.name is None or field.kind == "sides" for field in row.fields)
    if has_others or len(words) != len(row.fields):
        raise TypeError(f"gl.py has to write {name}: no call can be made of the row of {row.name}")
    numbers = [word.split("=")[0] for word in words]
    for at, field in enumerate(row.fields):
        if field.kind in conversions:
            numbers[at] = f"to_{field.kind}({numbers[at]})"
    known = {f"to_{kind}": conversion for kind, conversion in conversions.items()}
    head, issued = ", ".join(["self", *words]), ", ".join([repr(row.name), *numbers])
    exec(f"def {name}({head}):\n    self.issue({issued})\n", known)
    known[name].__doc__ = row.about
    return known[name]


def add_calls(kind, conversions):
    """Gives a class the calls that it doesn't write, each behind that of the command before it."""
    calls = {name: call for name, call in vars(kind).items() if inspect.isfunction(call)}
    order, before = list(calls), None
    for row in ROWS:
        name = row.call.partition("(")[0]
        if name not in calls:
            calls[name] = make_call(row, conversions)
            calls[name].__qualname__, calls[name].__module__ = f"{kind.__name__}.{name}", kind.__module__
            order.insert(order.index(before) + 1, name)
        before = name
    for name in order:
        if name in vars(kind):
            delattr(kind, name)
        setattr(kind, name, calls[name])
