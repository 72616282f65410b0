"""What docs/FORMAT.md prints, made of the JSON of docs/JSON.md: trees, refusals, tokens and names."""

GREATEST = 2**63 - 1

# The numbers of refusals, by kind; of `BadInput` by the kind of its error.
NUMBERS = {
    "UnexpectedEOF": 1, "UnexpectedInput": 2, "Lexer": 3, "MalformedNumber": 4, "ImproperSymbol": 5,
    "UnknownOperator": 6, "MissingToken": 7, "ExprExpected": 8, "MismatchedType": 9, "MalformedIndexExpr": 10,
    "MalformedCapture": 11, "PropertyExpected": 12, "VariableExpected": 13, "Reserved": 14, "DuplicatedProperty": 15,
    "DuplicatedVariable": 16, "VariableExists": 17, "VariableUndefined": 18, "ModuleUndefined": 19,
    "WrongSwitchDefaultCase": 20, "WrongSwitchCaseCondition": 21, "WrongSwitchIntegerCase": 22,
    "WrongFnDefinition": 23, "FnMissingName": 24, "FnMissingParams": 25, "FnMissingBody": 26, "FnDuplicatedParam": 27,
    "FnDuplicatedDefinition": 28, "WrongExport": 29, "AssignmentToConstant": 30, "AssignmentToInvalidLHS": 31,
    "LoopBreak": 32, "LiteralTooLarge": 33, "ExprTooDeep": 34, "TooManyFunctions": 35, "OutOfMemory": 36,
    "WrongDocComment": 37,
}

# The words of tokens that hold a text.
TEXTS = {"StringConstant": "str", "InterpolatedString": "istr", "Identifier": "id", "Reserved": "res",
         "Comment": "doc"}


def escaped(text):
    """Answers a text as it is written in lists."""
    return text.replace("\\", "\\\\").replace(" ", "\\s").replace("\n", "\\n") or "\\e"


def at(pos):
    """Answers a position as it is printed."""
    return "none" if pos is None else f"{pos['line']}:{pos['column']}"


def maybe(value):
    """Answers a field that may be absent."""
    return "-" if value is None else str(value)


def marks(*named):
    """Answers the names that are set."""
    return " ".join(name for name, is_set in named if is_set) or "-"


def literal(node):
    """Answers a value of a `switch` as it is printed."""
    kind, value = node["kind"], node.get("value")
    if kind == "Unit":
        return "unit"
    if kind == "BoolConstant":
        return f"bool {str(value).lower()}"
    if kind == "IntegerConstant":
        return f"int {value}"
    if kind == "CharConstant":
        return f"char {ord(value)}"
    if kind == "StringConstant":
        return f"str {escaped(value)}"
    if kind == "FnPointer":
        return f"fn {node['name']} {node['params']}"
    if kind == "Array":
        return " ".join([f"array {len(node['items'])}"] + [literal(item) for item in node["items"]])
    if kind == "Map":
        items = [f"{escaped(item['name'])} {literal(item['value'])}" for item in node["properties"]]
        return " ".join([f"map {len(items)}"] + items)
    ends = [arg["value"] if arg["kind"] == "IntegerConstant" else GREATEST for arg in node["args"]]
    return f"{node['name']} {ends[0]} {ends[1]}"


class Printed:
    """The printed tree of a tree in JSON. What is left to print is kept in a list, as trees nest deeply."""

    def __init__(self):
        self.lines = []
        self.left = []

    def line(self, depth, text):
        self.lines.append("  " * depth + text)

    def later(self, *parts):
        """Prints these parts next, in this order."""
        self.left.extend(reversed(parts))

    def run(self):
        while self.left:
            how, depth, part = self.left.pop()
            how(depth, part)

    def block(self, depth, block):
        self.line(depth, f"Block {at(block['start'])} {at(block['end'])}")
        self.later(*((self.statement, depth + 1, part) for part in block["statements"]))

    def node(self, depth, node):
        kind, pos = node["kind"], at(node["position"])
        self.line(depth, getattr(self, "line_" + kind)(node, pos))
        below = [part for key in ("parts", "items", "args", "operands") for part in node.get(key, ())]
        below += [part["value"] for part in node.get("properties", ())]
        below += [node[key] for key in ("lhs", "rhs") if key in node]
        self.later(*((self.node, depth + 1, part) for part in below))
        if kind == "Stmt":
            self.later((self.block, depth + 1, node["block"]))

    def line_Unit(self, node, pos):
        return f"Unit {pos}"

    def line_ThisPtr(self, node, pos):
        return f"This {pos}"

    def line_BoolConstant(self, node, pos):
        return f"Bool {pos} {str(node['value']).lower()}"

    def line_IntegerConstant(self, node, pos):
        return f"Int {pos} {node['value']}"

    def line_CharConstant(self, node, pos):
        return f"Char {pos} {ord(node['value'])}"

    def line_StringConstant(self, node, pos):
        return f"Str {pos} {escaped(node['value'])}"

    def line_InterpolatedString(self, node, pos):
        return f"Interpolated {pos}"

    def line_Array(self, node, pos):
        return f"Array {pos}"

    def line_Map(self, node, pos):
        keys = [f" {escaped(item['name'])} {at(item['position'])}" for item in node["properties"]]
        return f"Map {pos}" + "".join(keys)

    def line_Variable(self, node, pos):
        path = "".join(f" {escaped(step['name'])} {at(step['position'])}" for step in node["namespace"]["path"])
        return f"Variable {pos} {maybe(node['index'])} {node['name']}{path} {maybe(node['namespace']['index'])}"

    def line_FnCall(self, node, pos):
        mark = "!" if node["capture_parent_scope"] else "-"
        counts = f"{maybe(node['script_args'])} {node['native_args']}"
        return f"{node['kind']} {pos} {escaped(node['name'])} {counts} {mark}"

    line_MethodCall = line_FnCall

    def line_Dot(self, node, pos):
        return f"{node['kind']} {pos} " + marks(("NEGATED", node["negated"]), ("BREAK", node["terminating"]))

    line_Index = line_Dot

    def line_And(self, node, pos):
        return f"{node['kind']} {pos}"

    line_Or = line_Coalesce = line_And

    def line_Property(self, node, pos):
        return f"Property {pos} {node['name']}"

    def line_FnPointer(self, node, pos):
        return f"Pointer {pos} {node['name']} {node['params']}"

    def line_Stmt(self, node, pos):
        return f"Stmt {pos}"

    def statement(self, depth, node):
        kind, pos = node["kind"], at(node["position"])
        if kind == "Block":
            self.later((self.block, depth, node["block"]))
        elif kind != "Noop":
            self.line(depth, f"{kind} {pos}" if kind != "Expr" else "Expr")
            more = getattr(self, "fields_" + kind, lambda node: "")(node)
            self.lines[-1] += more
            self.later(*getattr(self, "below_" + kind, self.below)(depth + 1, node))

    def below(self, depth, node):
        """Answers the parts of a statement, in the order in which they are printed."""
        nodes = [key for key in ("expr", "lhs", "rhs", "value", "path") if node.get(key) is not None]
        blocks = [key for key in ("body", "branch") if key in node]
        return [(self.node, depth, node[key]) for key in nodes] + [(self.block, depth, node[key]) for key in blocks]

    def below_TryCatch(self, depth, node):
        body, branch = ((self.block, depth, node[key]) for key in ("body", "branch"))
        return [body, (self.node, depth, node["expr"]), branch]

    def below_Switch(self, depth, node):
        arms = [(self.node, depth, arm[key]) for arm in node["expressions"] for key in ("lhs", "rhs")]
        return [(self.node, depth, node["item"]), *arms, (self.ways, depth, node)]

    def ways(self, depth, node):
        for case in node["cases"]:
            self.line(depth, " ".join(["Case", literal(case["value"])] + [str(index) for index in case["indices"]]))
        for item in node["ranges"]:
            operator = "..=" if item["is_inclusive"] else ".."
            self.line(depth, f"Range {operator} {item['first']} {item['last']} {item['index']}")

    def fields_Switch(self, node):
        return " " + maybe(node["def_case"])

    def fields_Do(self, node):
        return " " + marks(("NEGATED", node["negated"]))

    def fields_For(self, node):
        return f" {node['name']} {maybe(node['counter'])}"

    def fields_Var(self, node):
        first, second = marks(("CONSTANT", node["constant"])), marks(("EXPORTED", node["exported"]))
        return f" {node['name']} {maybe(node['index'])} {first} {second}"

    def fields_Assignment(self, node):
        return " " + maybe(node["op"])

    def fields_BreakLoop(self, node):
        return " " + marks(("BREAK", node["breaks"]))

    def fields_Return(self, node):
        return " " + marks(("BREAK", node["throws"]))

    def fields_Import(self, node):
        return " " + escaped(node["name"])

    def fields_Export(self, node):
        return f" {node['name']} {escaped(node['alias'])}"

    def fields_Share(self, node):
        each = (f" {escaped(item['name'])} {at(item['position'])} {maybe(item['index'])}" for item in node["variables"])
        return "".join(each)

    def function(self, function):
        this_type = function["this_type"]
        head = "private fn" if function["private"] else "fn"
        words = [head, "-" if this_type is None else escaped(this_type), function["name"], *function["params"]]
        self.line(0, " ".join(words))
        for comment in function["comments"]:
            self.line(1, f"Doc {escaped(comment)}")
        self.later((self.block, 1, function["body"]))
        self.run()


def printed_tree(tree):
    """Answers the printed tree of a tree in JSON."""
    printed = Printed()
    printed.line(0, "accepted")
    printed.later(*((printed.statement, 0, part) for part in tree["statements"]))
    printed.run()
    printed.line(0, f"functions {len(tree['functions'])}")
    for function in tree["functions"]:
        printed.function(function)
    return printed.lines


def error_words(error):
    """Answers an error of the tokenizer as it is written in a list."""
    kind, payload = error["kind"], error["payload"]
    words = {"UnterminatedString": "unterminated", "OutOfMemory": "memory", "StringTooLong": "toolong",
             "MalformedNumber": "number", "ImproperSymbol": "improper", "UnexpectedInput": "unexpected"}
    named = [payload[key] for key in ("limit", "text", "symbol") if key in payload]
    return [words[kind]] + [str(value) if isinstance(value, int) else escaped(value) for value in named]


def printed_refusal(refusal):
    """Answers the printed line of a refusal in JSON."""
    kind, payload = refusal["kind"], refusal["payload"]
    place = "none" if refusal["line"] is None else f"{refusal['line']}:{refusal['column']}"
    if kind == "BadInput":
        inner = payload["error"]
        words = error_words(inner["payload"]["error"] if inner["kind"] == "Lexer" else inner)
        return " ".join([f"refused E{NUMBERS[inner['kind']]} {place} BadInput", *words])
    hidden = {"MissingToken": ["token"], "MalformedCapture": []}
    keys = hidden.get(kind, list(payload))
    words = [str(payload[key]) if isinstance(payload[key], int) else escaped(payload[key]) for key in keys]
    return " ".join([f"refused E{NUMBERS[kind]} {place} {kind}", *words])


def token_words(kind, payload, is_text):
    """Answers the kind and the payload of a token as they are in a list."""
    if kind == "IntegerConstant":
        return f"int {payload}"
    if kind == "CharConstant":
        return f"char {ord(payload)}"
    if kind == "LexError":
        return " ".join(["err", *error_words(payload)])
    if kind in TEXTS:
        return f"{'t' if is_text else ''}{TEXTS[kind]} {escaped(payload)}"
    return "sym " + {"UnaryMinus": "u-", "UnaryPlus": "u+"}.get(kind, payload)


def printed_token(token):
    """Answers the line of a token in JSON, as it is in a list with bytes."""
    place, span = at(token["position"]), token["span"]
    if token["kind"] == "EOF":
        return f"{place} eof"
    words = token_words(token["kind"], token["payload"], token["text"])
    return f"{place} {words} @{span['start']}..{span['stop']}"


def printed_names(names):
    """Answers the line of a function's names in JSON."""
    this_type = "" if names["this_type"] is None else names["this_type"] + "."
    free = ", ".join(names["free"]) or "-"
    calls = ", ".join(f"{call['name']}/{call['args']}" for call in names["calls"]) or "-"
    return f"{this_type}{names['name']}/{names['params']}: free {free}; calls {calls}"
