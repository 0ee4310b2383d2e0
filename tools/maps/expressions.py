"""Label texts of MapServer: strings with [ITEM] in them, and the expressions of TEXT that agencies use.

An expression stands in parentheses: strings, [ITEM] as a number, "[ITEM]" as a text, the signs + - * /, and the functions
tostring, round, upper, lower, initcap and firstcap.
"""

import ast
import re

TOKEN = re.compile(r"""\s*(?:("(?:[^"\\]|\\.)*"|'(?:[^'\\]|\\.)*'|`[^`]*`)|(\[[^\]]*\])|(\d+(?:\.\d*)?)|([A-Za-z]+)|([-+*/(),]))""")
FORMAT = re.compile(r"[^%]*%[-+ 0#]*\d*(?:\.\d+)?[dfgeFGE][^%]*")


class Unknown(Exception):
    """An expression that isn't understood."""


def filled(text, item_of):
    """The text with each [ITEM] replaced by the item's value."""
    return re.sub(r"\[([^\]]+)\]", lambda found: item_of(found[1]), text)


def text_of(expression, item_of):
    """The text that MapServer's TEXT means for a shape whose items the function gives."""
    expression = expression.strip()
    if expression.startswith("("):
        return written(read(expression, item_of))
    if len(expression) > 1 and expression[0] in "\"'" and expression[-1] == expression[0]:
        expression = expression[1:-1]
    return filled(expression, item_of)


def written(value):
    return value if isinstance(value, str) else f"{value:g}"


def number(value):
    try:
        return float(value)
    except ValueError as error:
        raise Unknown(f"{value!r} is no number") from error


def formatted(value, form):
    if not FORMAT.fullmatch(form):
        raise Unknown(f"the format {form!r}")
    value = number(value)
    return form % (int(value) if re.search(r"d[^%]*$", form) else value)


FUNCTIONS = {
    "tostring": formatted,
    "round": lambda value, step: round(number(value) / number(step)) * number(step),
    "upper": lambda text: written(text).upper(),
    "lower": lambda text: written(text).lower(),
    "initcap": lambda text: written(text).title(),
    "firstcap": lambda text: written(text)[:1].upper() + written(text)[1:],
}
OPERATORS = {
    ast.Add: lambda one, other: one + other if isinstance(one, float) and isinstance(other, float) else written(one) + written(other),
    ast.Sub: lambda one, other: number(one) - number(other),
    ast.Mult: lambda one, other: number(one) * number(other),
    ast.Div: lambda one, other: number(one) / number(other),
}


def read(expression, item_of):
    """The value of an expression. What Python's own parser reads are its signs, and words in the place of what it holds."""
    words, values, place = [], {}, 0
    while place < len(expression.rstrip()):
        found = TOKEN.match(expression, place)
        if found is None:
            raise Unknown(expression[place:])
        string, item, digits, function, sign = found.groups()
        words.append(sign or function and function.lower() or f"value{place}")
        if not sign and not function:
            values[words[-1]] = (filled(string[1:-1], item_of) if string is not None
                                 else number(item_of(item[1:-1]) if item is not None else digits))
        place = found.end()
    try:
        return value_of(ast.parse(" ".join(words), mode="eval").body, values)
    except (SyntaxError, TypeError, ValueError, ArithmeticError, RecursionError) as error:
        raise Unknown(str(error)) from error


def value_of(node, values):
    if isinstance(node, ast.Name) and node.id in values:
        return values[node.id]
    if isinstance(node, ast.BinOp) and type(node.op) in OPERATORS:
        return OPERATORS[type(node.op)](value_of(node.left, values), value_of(node.right, values))
    if isinstance(node, ast.Call) and isinstance(node.func, ast.Name) and node.func.id in FUNCTIONS:
        return FUNCTIONS[node.func.id](*(value_of(each, values) for each in node.args))
    raise Unknown(f"{type(node).__name__} {getattr(node, 'id', '')}".strip())
