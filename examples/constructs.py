"""Names the construct of a Python text for which navd refuses a line, as Python's own tokens and tree tell it.

It looks for the forms that navd doesn't read, and is no part of the server. Lines count from 0, as navd tells them.
`ask.py` beside it has it told of files that are refused; by itself it is no command.
"""

import ast
import io
import re
import tokenize
from typing import Iterator, Optional, Tuple

# A construct, with the line from 0 on which navd's refused token stands, and its column, by which the first is taken.
Found = Tuple[int, int, str]

# Tokens that begin a formatted string, from Python 3.12 on.
FORMATTED = [getattr(tokenize, name) for name in ("FSTRING_START", "TSTRING_START") if hasattr(tokenize, name)]

# Forms that are refused at their first word or sign.
AT_THEIR_START = {
    ast.AsyncFor: "async for",
    ast.AsyncFunctionDef: "async def",
    ast.AsyncWith: "async with",
    ast.Assert: "assert",
    ast.Await: "await",
    ast.Delete: "del",
    ast.Dict: "dictionary",
    ast.DictComp: "dictionary comprehension",
    ast.Global: "global",
    ast.JoinedStr: "formatted string",
    ast.Lambda: "lambda",
    ast.Nonlocal: "nonlocal",
    ast.Raise: "raise",
    ast.Set: "set",
    ast.SetComp: "set comprehension",
    ast.Starred: "starred expression",
    ast.Try: "try",
    ast.With: "with",
    ast.Yield: "yield",
    ast.YieldFrom: "yield from",
}

# Statements that came with later versions of Python, by the names of their nodes.
LATER_STATEMENTS = {"Match": "match", "TryStar": "try", "TypeAlias": "type"}


def construct_at(text: str, line: int) -> Optional[str]:
    """What stands on this line that navd doesn't read, or None where nothing that is known does.

    Of several the first is named; forms of tokens come before others, since navd looks at all tokens first.
    """
    named = first_on(line, token_forms(text, line))
    if named is not None:
        return named
    try:
        tree = ast.parse(text)
    except SyntaxError as error:
        where = "" if error.lineno in (None, line + 1) else f" (line {error.lineno})"
        return f"this Python doesn't read it either{where}: {error.msg}"
    except (ValueError, RecursionError, MemoryError):
        return None
    return first_on(line, tree_forms(tree))


def first_on(line: int, forms: Iterator[Found]) -> Optional[str]:
    """The construct on the line with the least column."""
    return min(((column, what) for at, column, what in forms if at == line), default=(0, None))[1]


def token_forms(text: str, last: int) -> Iterator[Found]:
    """Forms that are refused as tokens, up to the end of this line, where Python's own tokens can be made."""
    before = None
    try:
        for token in tokenize.generate_tokens(io.StringIO(text).readline):
            line, column = token.start[0] - 1, token.start[1]
            if line > last:
                break
            what = token_form(token, before)
            if what is not None:
                yield line, column, what
            if token.type != tokenize.NL and token.type != tokenize.COMMENT:
                before = token
    except (tokenize.TokenError, SyntaxError):
        pass
    for number, content in enumerate(text.split("\n", last + 1)[: last + 1]):
        if content.rstrip("\r").endswith("\\"):
            yield number, len(content), "backslash at the end of a line"
        if "\t" in content[: len(content) - len(content.lstrip())]:
            yield number, 0, "tab in front of a line"


def token_form(token: tokenize.TokenInfo, before: Optional[tokenize.TokenInfo]) -> Optional[str]:
    """The form for which navd refuses this token by itself."""
    if token.type == tokenize.STRING:
        return string_form(token.string, before)
    if token.type in FORMATTED:
        return string_form(token.string + "''", before)
    if token.type == tokenize.NUMBER and not re.fullmatch(r"0|[1-9][0-9]*", token.string):
        return "number in another form than whole decimal"
    if token.type == tokenize.OP and token.string == ";":
        return "two statements on a line"
    if token.type == tokenize.OP and token.string == "...":
        return "ellipsis"
    return None


def string_form(string: str, before: Optional[tokenize.TokenInfo]) -> Optional[str]:
    """The form for which navd refuses a string."""
    prefix = re.match("[^'\"]*", string).group()
    if prefix:
        return f"string with {prefix} before it"
    if string[:3] in ('"""', "'''"):
        return "string in triple quotes"
    if before is not None and before.type == tokenize.STRING:
        return "two strings in a row"
    return None


def tree_forms(tree: ast.AST) -> Iterator[Found]:
    """Forms that are refused by the grammar, each at the line of the token at which it can't go on."""
    for node in ast.walk(tree):
        what = AT_THEIR_START.get(type(node))
        if what is not None:
            yield node.lineno - 1, node.col_offset, what
        elif isinstance(node, ast.stmt):
            yield from statement_forms(node)
        elif isinstance(node, ast.expr):
            yield from expression_forms(node)
        elif isinstance(node, ast.keyword):
            # Before Python 3.9 an argument by name has no place of its own.
            place = node if hasattr(node, "lineno") else node.value
            yield place.lineno - 1, place.col_offset, "keyword argument" if node.arg else "argument with two stars"
        elif isinstance(node, ast.arguments):
            yield from parameter_forms(node)


def end_of(node: ast.AST) -> Tuple[int, int]:
    """Where the node ends: the line from 0, and the column."""
    return node.end_lineno - 1, node.end_col_offset


def statement_forms(node: ast.stmt) -> Iterator[Found]:
    """Forms of statements."""
    for decorator in getattr(node, "decorator_list", []):
        yield decorator.lineno - 1, decorator.col_offset - 1, "decorator"
    if isinstance(node, ast.FunctionDef) and node.returns is not None:
        yield node.returns.lineno - 1, node.returns.col_offset - 1, "annotation of what is returned"
    elif isinstance(node, ast.AugAssign):
        yield (*end_of(node.target), "assignment with an operator")
    elif isinstance(node, ast.AnnAssign):
        yield (*end_of(node.target), "annotated assignment")
    elif isinstance(node, ast.Assign):
        if len(node.targets) > 1:
            yield (*end_of(node.targets[1]), "two assignments in a row")
        if not isinstance(node.targets[0], (ast.Name, ast.Attribute, ast.Subscript)):
            yield (*end_of(node.targets[0]), "assignment to several targets")
    elif isinstance(node, ast.For) and not isinstance(node.target, ast.Name):
        yield (node.target.lineno - 1, node.target.col_offset, "for over more than one name")
    elif isinstance(node, ast.ImportFrom) and node.level:
        yield node.lineno - 1, node.col_offset, "import that begins with a dot"
    elif type(node).__name__ in LATER_STATEMENTS:
        yield node.lineno - 1, node.col_offset, LATER_STATEMENTS[type(node).__name__]


def expression_forms(node: ast.expr) -> Iterator[Found]:
    """Forms of expressions."""
    if isinstance(node, ast.Subscript):
        yield (*end_of(node.value), "subscript")
    elif isinstance(node, ast.IfExp):
        yield node.test.lineno - 1, node.test.col_offset - 1, "conditional expression"
    elif isinstance(node, ast.BinOp) and isinstance(node.op, ast.MatMult):
        yield (*end_of(node.left), "matrix product")
    elif isinstance(node, ast.NamedExpr):
        yield (*end_of(node.target), "assignment within an expression")
    elif isinstance(node, (ast.ListComp, ast.GeneratorExp)):
        target = node.generators[0].target
        yield target.lineno - 1, target.col_offset - 1, "comprehension"


def parameter_forms(node: ast.arguments) -> Iterator[Found]:
    """Forms of parameters."""
    for default in [*node.defaults, *node.kw_defaults]:
        if default is not None:
            yield default.lineno - 1, default.col_offset - 1, "default of a parameter"
    for parameter in (node.vararg, node.kwarg):
        if parameter is not None:
            yield parameter.lineno - 1, parameter.col_offset - 1, "parameter with a star"
    for parameter in node.kwonlyargs[:1]:
        yield parameter.lineno - 1, parameter.col_offset - 1, "parameter by name alone"
    for parameter in node.posonlyargs[-1:]:
        yield (*end_of(parameter), "parameter by place alone")
    for parameter in [*node.posonlyargs, *node.args, *node.kwonlyargs, node.vararg, node.kwarg]:
        if parameter is not None and parameter.annotation is not None:
            yield parameter.lineno - 1, parameter.col_offset, "annotation of a parameter"


if __name__ == "__main__":
    raise SystemExit("constructs.py is a part of ask.py, and no command by itself")
