"""The slips that can be made in the source: one small change each.

A slip is named by its file, the function, and the text before and after, so
that the name stays when lines are added elsewhere.
"""

import ast
import copy

TURNED = {ast.Lt: ast.GtE, ast.GtE: ast.Lt, ast.Gt: ast.LtE, ast.LtE: ast.Gt, ast.Eq: ast.NotEq,
          ast.NotEq: ast.Eq, ast.In: ast.NotIn, ast.NotIn: ast.In, ast.Is: ast.IsNot, ast.IsNot: ast.Is}
EXCHANGED = {ast.Add: ast.Sub, ast.Sub: ast.Add, ast.Mult: ast.Add, ast.FloorDiv: ast.Mod,
             ast.Mod: ast.FloorDiv, ast.BitOr: ast.BitAnd, ast.BitAnd: ast.BitOr, ast.BitXor: ast.BitOr,
             ast.RShift: ast.LShift, ast.LShift: ast.RShift}
MOVED_BY_ONE = {ast.Lt: ast.LtE, ast.LtE: ast.Lt, ast.Gt: ast.GtE, ast.GtE: ast.Gt}

# Of these kinds of nodes Python has one for all trees.
SHARED = (ast.expr_context, ast.boolop, ast.operator, ast.unaryop, ast.cmpop)


class Slip:
    """One slip: a tree with one node exchanged, where it is, and its name."""

    def __init__(self, module, function, statement, node, changed, tree):
        self.module, self.statement = module, statement
        self.node, self.changed, self.tree = node, changed, tree
        where = f"{module.replace('.', '/')}.py {function}"
        self.name = f"{where}: {text_of(node)} -> {text_of(changed)}"

    def code(self):
        """The module's code with the slip in it."""
        tree = Exchange(self.node, self.changed).visit(copy.deepcopy(self.tree))
        return compile(ast.fix_missing_locations(tree), self.module, "exec")


class Exchange(ast.NodeTransformer):
    """Exchanges the one node that has the number of another."""

    def __init__(self, node, changed):
        self.number, self.changed = node.number, changed

    def visit(self, node):
        if getattr(node, "number", None) == self.number:
            return self.changed
        return self.generic_visit(node)


def text_of(node):
    """A node as one line of source."""
    if isinstance(node, ast.If):
        return f"if {ast.unparse(node.test)}"
    if isinstance(node, ast.comprehension):
        return ast.unparse(node).strip()
    return " ".join(ast.unparse(node).split())


def slips_in(module, tree):
    """All slips in a module whose nodes are numbered."""
    slips, names = [], {}
    for node, function, statement in places_in(tree):
        for changed in changes_of(node):
            ast.copy_location(changed, node)
            slip = Slip(module, function, statement, node, changed, tree)
            names[slip.name] = names.get(slip.name, 0) + 1
            if names[slip.name] > 1:
                slip.name += f" (no. {names[slip.name]})"
            slips.append(slip)
    return slips


def number_nodes(tree):
    """Gives each node a number, so that a copy of the tree can be told where. Nodes that
    are shared have none: it would be that of another tree."""
    for number, node in enumerate(ast.walk(tree)):
        if not isinstance(node, SHARED):
            node.number = number
    return tree


def places_in(tree, function="", statement=None):
    """Each node with the function and the number of the statement it is in."""
    for node in ast.iter_child_nodes(tree):
        if isinstance(node, (ast.Import, ast.ImportFrom)) or is_docstring(node):
            continue
        inner = function
        if isinstance(node, (ast.FunctionDef, ast.ClassDef)):
            inner = f"{function}.{node.name}" if function else node.name
        holder = node.number if isinstance(node, ast.stmt) else statement
        yield node, inner or "(module)", holder
        yield from places_in(node, inner, holder)


def is_docstring(node):
    return isinstance(node, ast.Expr) and isinstance(node.value, ast.Constant)


def changes_of(node):
    """What a slip might make of a node."""
    if isinstance(node, ast.Compare):
        return changed_comparisons(node)
    if isinstance(node, ast.Constant) and type(node.value) is int:
        return [ast.Constant(node.value + 1), ast.Constant(node.value - 1)]
    if isinstance(node, ast.BoolOp):
        other = ast.Or() if isinstance(node.op, ast.And) else ast.And()
        return [ast.BoolOp(other, node.values)]
    if isinstance(node, ast.BinOp) and type(node.op) in EXCHANGED:
        return [ast.BinOp(node.left, EXCHANGED[type(node.op)](), node.right)]
    if isinstance(node, ast.AugAssign) and type(node.op) in EXCHANGED:
        return [ast.AugAssign(node.target, EXCHANGED[type(node.op)](), node.value), ast.Pass()]
    if isinstance(node, ast.UnaryOp) and isinstance(node.op, ast.Not):
        return [node.operand]
    if isinstance(node, ast.If):
        return [ast.If(ast.Constant(taken), node.body, node.orelse) for taken in (True, False)]
    if isinstance(node, ast.IfExp):
        return [node.body, node.orelse]
    if isinstance(node, ast.comprehension) and node.ifs:
        return [ast.comprehension(node.target, node.iter, [ast.Constant(taken)], node.is_async)
                for taken in (True, False)]
    if isinstance(node, ast.Return) and node.value and not is_none(node.value):
        return [ast.Return(ast.Constant(None))]
    if isinstance(node, (ast.Assign, ast.Expr, ast.Raise)):
        return [ast.Pass()]
    return []


def is_none(node):
    return isinstance(node, ast.Constant) and node.value is None


def changed_comparisons(node):
    """Each comparison turned round, and moved by one where it has an order."""
    for place, operator in enumerate(node.ops):
        for table in (TURNED, MOVED_BY_ONE):
            if type(operator) in table:
                operators = node.ops[:place] + [table[type(operator)]()] + node.ops[place + 1:]
                yield ast.Compare(node.left, operators, node.comparators)
