"""Changes of a Python source at one place: another operator, number or truth, or a condition that is left out."""
import ast
from typing import NamedTuple, Optional

OPERATORS = {
    ast.Lt: ast.LtE, ast.LtE: ast.Lt, ast.Gt: ast.GtE, ast.GtE: ast.Gt, ast.Eq: ast.NotEq, ast.NotEq: ast.Eq,
    ast.In: ast.NotIn, ast.NotIn: ast.In, ast.Is: ast.IsNot, ast.IsNot: ast.Is, ast.And: ast.Or, ast.Or: ast.And,
    ast.Add: ast.Sub, ast.Sub: ast.Add, ast.Mult: ast.FloorDiv, ast.FloorDiv: ast.Mult, ast.Mod: ast.FloorDiv,
    ast.Pow: ast.Mult, ast.LShift: ast.RShift, ast.RShift: ast.LShift, ast.BitAnd: ast.BitOr, ast.BitOr: ast.BitAnd,
    ast.BitXor: ast.BitOr}
# Of these a part is shown, and not the whole.
COMPOUND = (ast.Module, ast.ClassDef, ast.FunctionDef, ast.If, ast.For, ast.While, ast.With, ast.Try, ast.Match,
            ast.ExceptHandler, ast.match_case, ast.withitem)
# What types say isn't run.
UNCHANGED = "annotation", "returns"
MOST_SHOWN = 110


class Place(NamedTuple):
    """A node, where it stands in the node around it, and what is around it: from outside, and in which function."""
    node: ast.AST
    around: tuple
    field: str
    position: Optional[int]
    function: str

    def put(self, node):
        """Puts a node there."""
        if self.position is None:
            setattr(self.around[-1], self.field, node)
        else:
            getattr(self.around[-1], self.field)[self.position] = node


class Change(NamedTuple):
    """A change of a file's place: the function, what stands there, what is put there, and both to be read."""
    file: str
    place: Place
    node: ast.AST
    was: str
    becomes: str

    def key(self):
        return self.file, self.place.function, self.was, self.becomes


def without(parts, i):
    return [*parts[:i], *parts[i + 1:]]


def other(operator):
    return OPERATORS[type(operator)]()


def others(node):
    """What may be put in the place of a node."""
    match node:
        case ast.Compare(left, operators, right):
            for i, operator in enumerate(operators):
                yield ast.Compare(left, [*operators[:i], other(operator), *operators[i + 1:]], right)
        case ast.BinOp(left, operator, right):
            yield ast.BinOp(left, other(operator), right)
        case ast.AugAssign(target, operator, value):
            yield ast.AugAssign(target, other(operator), value)
        case ast.BoolOp(operator, values):
            yield ast.BoolOp(other(operator), values)
            for i in range(len(values)):
                rest = without(values, i)
                yield ast.BoolOp(operator, rest) if rest[1:] else rest[0]
        case ast.UnaryOp(ast.Not() | ast.USub(), operand):
            yield operand
        case ast.IfExp(_, body, orelse):
            yield from (body, orelse)
        case ast.comprehension(target, source, tests, is_async):
            for i in range(len(tests)):
                yield ast.comprehension(target, source, without(tests, i), is_async)
        case ast.Constant(bool(value)):
            yield ast.Constant(not value)
        case ast.Constant(int(value)):
            yield from (ast.Constant(value + 1), ast.Constant(value - 1))


def slots(node):
    """The nodes right below a node, with the field and the position of each."""
    for field, value in ast.iter_fields(node):
        if field in UNCHANGED:
            continue
        parts = enumerate(value) if isinstance(value, list) else [(None, value)]
        yield from ((field, position, part) for position, part in parts if isinstance(part, ast.AST))


def is_program(node):
    """Whether a node is what a file does where it is run."""
    return isinstance(node, ast.If) and ast.unparse(node.test) == "__name__ == '__main__'"


def places(node, left, around=(), function=""):
    """The places below a node, but in the functions that are left out."""
    for field, position, part in slots(node):
        if is_program(part):
            continue
        is_named = isinstance(part, (ast.ClassDef, ast.FunctionDef))
        name = f"{function}.{part.name}".lstrip(".") if is_named else function
        if name not in left:
            yield Place(part, (*around, node), field, position, name)
            yield from places(part, left, (*around, node), name)


def text_of(node):
    return ast.unparse(node).strip()


def shown(place):
    """The widest part around a place that isn't too long to be shown, or else the narrowest that tells which one it is."""
    parts = [part for part in (*place.around, place.node) if not isinstance(part, (*COMPOUND, ast.Constant))]
    return next((part for part in parts if len(text_of(part)) <= MOST_SHOWN), parts[-1])


def changes_at(file, place):
    nodes = list(others(place.node))
    part = shown(place) if nodes else None
    for node in nodes:
        ast.copy_location(node, place.node)
        was = text_of(part)
        place.put(node)
        becomes = text_of(node if part is place.node else part)
        place.put(place.node)
        yield Change(file, place, node, was, becomes)


def changes_of(file, tree, left):
    """All changes of a file's tree, but in the functions that are left out."""
    return [change for place in places(tree, left) for change in changes_at(file, place)]


def changed(tree, change):
    """The program of a tree with a change; the tree stays changed."""
    change.place.put(change.node)
    return compile(ast.fix_missing_locations(tree), change.file, "exec")


# Where a change counts.


def names_made(statement):
    """The names that a statement makes."""
    targets = statement.targets if isinstance(statement, ast.Assign) else []
    return {node.id for target in targets for node in ast.walk(target) if isinstance(node, ast.Name)}


def names_used(node):
    """The names that are used below a node, each with its line."""
    for part in ast.walk(node):
        name = part.id if isinstance(part, ast.Name) else part.attr if isinstance(part, ast.Attribute) else None
        if name is not None:
            yield name, part.lineno


def line_of(place):
    """The line that is run where a place in a function counts, or None for a place outside of functions."""
    depth = max((i for i, node in enumerate(place.around) if isinstance(node, ast.FunctionDef)), default=None)
    if depth is None:
        return None
    function, *inner = *place.around[depth:], place.node
    if isinstance(inner[0], ast.arguments):
        return function.body[ast.get_docstring(function) is not None].lineno
    return next(node.lineno for node in reversed(inner) if hasattr(node, "lineno"))
