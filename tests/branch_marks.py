"""Marks each branch of a file of Rattle: what is put where, and what the marks say. tests/branches uses it.

A file is read as tokens, as rt fmt leaves it; no type is known. A mark is a number. It is put

    at the start of a function, of a closure and of a loop's body
    in each arm of a match, in both ways of an if, in the else of a let, and behind that let
    at each ?, of which the number says that it returned, and the next one that it went on

An arm that is unreachable!() has none: the prover shows that it is not come to. Nothing is marked in a macro's arguments.
"""
import bisect, re

MARKS = "branch_marks"
TOKEN = re.compile(
    r"""//[^\n]*|b?r(\#*)".*?"\1|b?"(?:[^"\\]|\\.)*"|b?'(?:[^'\\\n]|\\[^\n][^'\n]*)'|'[A-Za-z_]\w*|\w+|\s+"""
    r"""|=>|->|::|\.\.=|\.\.|&&|\|\||[=!<>+\-*/%^&|]=|.""",
    re.S,
)
PAIRS = {"(": ")", "[": "]", "{": "}"}
# Behind one of these a bar begins a closure.
BEFORE_CLOSURE = {"(", ",", "=", "=>", "{", ";", "move", "return", ":", "&", "["}
WORDS = {"return", "break", "in", "else", "match", "if", "while", "move", "mut", "let", "ref", "as"}


class Mark:
    """A branch: its kind, the function that it is in, its line and the line's text, where it stands, and up to where all that
    follows is done only where it is come to."""

    def __init__(self, kind, function, line, text, place, end):
        self.kind, self.function, self.line, self.text, self.place, self.end = kind, function, line, text, place, end


class Marker:
    """One file. `marks` are in the order of their numbers, from `first` on. `unreachable` counts the arms without one."""

    def __init__(self, text, first):
        self.text, self.first, self.marks, self.spans, self.unreachable = text, first, [], [], 0
        found = [it for it in TOKEN.finditer(text) if not it[0].isspace() and not it[0].startswith("//")]
        self.tokens, self.at = [it[0] for it in found], [it.span() for it in found]
        self.lines = [it.start() for it in re.finditer(r"^", text, re.M)]
        self.closes, self.opens, open_now = {}, {}, []
        for place, token in enumerate(self.tokens):
            if token in PAIRS:
                open_now.append(place)
            elif open_now and token == PAIRS[self.tokens[open_now[-1]]]:
                self.closes[open_now[-1]] = place
                self.opens[place] = open_now.pop()
        self.functions, self.answers = [], []
        self.items()

    # What is put where.

    def mark(self, kind, place, end=None):
        line = bisect.bisect_right(self.lines, self.at[place][0])
        said = self.text[self.lines[line - 1] :].split("\n", 1)[0].strip()
        self.marks.append(Mark(kind, self.functions[-1], line, said, place, place if end is None else end))
        return self.first + len(self.marks) - 1

    def put(self, begin, end, before, after):
        self.spans.append((begin, end, before, after))

    def in_block(self, kind, place, told=None):
        """Marks the block that opens at a token, but for one that is unreachable!()."""
        if self.tokens[place + 1] == "unreachable":
            self.unreachable += 1
            return None
        number = self.mark(kind, place if told is None else told, self.closes[place])
        self.put(self.at[place][1], self.at[self.closes[place]][0], f" {MARKS}::mark({number});", "")
        return number

    def wrapped(self, number, first, last):
        """Marks the expression of these tokens, both among them."""
        self.marks[number - self.first].end = last
        self.put(self.at[first][0], self.at[last][1], f"{{ {MARKS}::mark({number}); ", " }")

    def told(self, number, first, last):
        """The value of these tokens tells whether it fails for want of memory alone."""
        self.put(self.at[first][0], self.at[last][1], f"{MARKS}::told({number}, ", ")")

    def marked(self):
        """The file's text with its marks."""
        before = sorted((begin, -end, at) for at, (begin, end, _, _) in enumerate(self.spans))
        after = sorted((end, -begin, -at) for at, (begin, end, _, _) in enumerate(self.spans))
        puts = [(end, 0, self.spans[-at][3]) for end, _, at in after]
        puts += [(begin, 1, self.spans[at][2]) for begin, _, at in before]
        puts.sort(key=lambda it: it[:2])
        parts, done = [], 0
        for place, _, said in puts:
            parts += [self.text[done:place], said]
            done = place
        return "".join(parts) + self.text[done:]

    # Functions.

    def items(self):
        place = 0
        while place < len(self.tokens):
            place = self.function(place) if self.is_function(place) else place + 1

    def is_function(self, place):
        return self.tokens[place] == "fn" and re.match(r"\w", self.tokens[place + 1])

    def body_from(self, place):
        """The brace of a body behind a head with clauses, or the semicolon in its place."""
        while self.tokens[place] not in ("{", ";"):
            if self.tokens[place] in ("requires", "ensures", "ghost"):
                while self.tokens[place] != "{":
                    place += 1
            place = self.closes.get(place, place) + 1
        return place

    def function(self, place):
        body = self.body_from(place)
        if self.tokens[body] == ";" or self.closes[body] == body + 1:
            return body + 1
        self.functions.append(self.tokens[place + 1])
        self.answers.append(self.answer(place, body))
        self.in_block("function", body, place)
        self.walk(body + 1, self.closes[body])
        self.answers.pop()
        self.functions.pop()
        return self.closes[body] + 1

    def answer(self, place, body):
        """The name of what a function or a closure gives: Result or Option where a ? stands in it."""
        while place < body and self.tokens[place] not in ("->", "requires", "ensures"):
            place = self.closes.get(place, place) + 1
        place += 1
        while place < body and self.tokens[place + 1] == "::":
            place += 2
        return self.tokens[place]

    def block_end(self, place):
        """The end of the block that a token is in."""
        return min(end for begin, end in self.closes.items() if begin < place < end and self.tokens[begin] == "{")

    # Expressions. Each of these begins at a token, and gives the token behind what it read.

    def walk(self, place, end):
        while place < end:
            place = self.step(place)

    def until(self, place, ends):
        """Walks on to one of these tokens, or to the end of the group that this is in."""
        while self.tokens[place] not in ends and place not in self.opens:
            place = self.step(place)
        return place

    def step(self, place):
        token = self.tokens[place]
        ahead = self.tokens[place + 1] if place + 1 < len(self.tokens) else ""
        if token in ("match", "if", "while", "let"):
            return {"match": self.matched, "if": self.ifs, "while": self.while_loop, "let": self.let}[token](place)
        if token == "for" and ahead != "<":
            return self.for_loop(place)
        if token == "loop" and ahead == "{":
            return self.body(place + 1, "loop")
        if self.is_function(place):
            return self.function(place)
        if ahead == "!" and place + 2 in self.closes and re.match(r"[a-z]", token):
            return self.closes[place + 2] + 1
        if token == "#" and ahead == "[":
            return self.closes[place + 1] + 1
        if token == "::" and ahead == "<":
            return self.angle(place + 1)
        if token in ("|", "||") and self.tokens[place - 1] in BEFORE_CLOSURE:
            return self.closure(place)
        if token == "?":
            return self.tries(place)
        if place in self.closes:
            self.walk(place + 1, self.closes[place])
            return self.closes[place] + 1
        return place + 1

    def angle(self, place):
        depth = 0
        while True:
            depth += {"<": 1, ">": -1}.get(self.tokens[place], 0)
            place += 1
            if not depth:
                return place

    def body(self, place, kind, told=None):
        self.in_block(kind, place, told)
        self.walk(place + 1, self.closes[place])
        return self.closes[place] + 1

    def pattern(self, place, ends):
        """Passes over a pattern, and gives its end."""
        while self.tokens[place] not in ends:
            place = self.closes.get(place, place) + 1
        return place

    def is_call(self, last):
        return self.tokens[last] == ")"

    def matched(self, place):
        brace = self.until(place + 1, {"{"})
        failing, at = None, brace + 1
        while at < self.closes[brace]:
            while self.tokens[at] == "#":
                at = self.closes[at + 1] + 1
            first = at
            at = self.pattern(at, {"=>", "if"})
            if self.tokens[at] == "if":
                at = self.until(at + 1, {"=>"}) if self.tokens[at + 1] != "let" else self.pattern(at, {"=>"})
            number, at = self.arm(at + 1, first)
            if self.tokens[first] == "Err" and failing is None:
                failing = number
        if failing is not None and self.is_call(brace - 1):
            self.told(failing, place + 1, brace - 1)
        return self.closes[brace] + 1

    def arm(self, place, told):
        """An arm's body. Gives its mark, and the token behind it and its comma."""
        if self.tokens[place] == "{":
            number = self.in_block("arm", place, told)
            self.walk(place + 1, self.closes[place])
            end = self.closes[place] + 1
        else:
            number, end = self.short_arm(place, told)
        return number, end + 1 if self.tokens[end] == "," else end

    def short_arm(self, place, told):
        if self.tokens[place] == "unreachable":
            self.unreachable += 1
            return None, self.closes[place + 2] + 1
        number = self.mark("arm", told)
        end = self.until(place, {","})
        self.wrapped(number, place, end - 1)
        return number, end

    def condition(self, place):
        """Passes over a condition. Gives its brace, and where it is one `let` with Ok or Err, that word and its expression's start."""
        named, start, count = None, None, 0
        while self.tokens[place] != "{":
            if self.tokens[place] == "let":
                named, count = self.tokens[place + 1], count + 1
                place = start = self.pattern(place, {"="}) + 1
            elif self.tokens[place] in ("&&", "||"):
                named, place = None, place + 1
            else:
                place = self.step(place)
        return place, named if count == 1 and named in ("Ok", "Err") and self.is_call(place - 1) else None, start

    def ifs(self, place):
        brace, named, start = self.condition(place + 1)
        taken = self.in_block("then", brace, place)
        self.walk(brace + 1, self.closes[brace])
        end = self.closes[brace] + 1
        if end < len(self.tokens) and self.tokens[end] == "else":
            other, end = self.otherwise(end)
        else:
            other = self.mark("passed by", place)
            self.put(self.at[place][0], self.at[end - 1][1], "", f" else {{ {MARKS}::mark({other}); }}")
        number = {"Ok": other, "Err": taken}.get(named)
        if number is not None:
            self.told(number, start, brace - 1)
        return end

    def otherwise(self, place):
        if self.tokens[place + 1] == "if":
            return None, self.ifs(place + 1)
        number = self.in_block("else", place + 1, place)
        self.walk(place + 2, self.closes[place + 1])
        return number, self.closes[place + 1] + 1

    def while_loop(self, place):
        brace, _, _ = self.condition(place + 1)
        return self.body(brace, "loop", place)

    def for_loop(self, place):
        start = self.pattern(place, {"in"})
        return self.body(self.until(start + 1, {"{"}), "loop", place)

    def let(self, place):
        named, at = self.tokens[place + 1], self.pattern(place, {"=", ";"})
        if self.tokens[at] == ";":
            return at
        end = self.until(at + 1, {";", "else"})
        if self.tokens[end] != "else":
            return end
        number = self.in_block("else of let", end + 1, end)
        if named == "Ok" and self.is_call(end - 1) and number is not None:
            self.told(number, at + 1, end - 1)
        self.walk(end + 2, self.closes[end + 1])
        semicolon = self.closes[end + 1] + 1
        went_on = self.mark("behind let", place, self.block_end(place))
        if named == "Err" and self.is_call(end - 1):
            self.told(went_on, at + 1, end - 1)
        self.put(self.at[place][0], self.at[semicolon][1], "", f" {MARKS}::mark({went_on});")
        return semicolon

    def closure(self, place):
        start = at = place + 1 if self.tokens[place] == "||" else self.pattern(place + 1, {"|"}) + 1
        if self.tokens[at] in ("->", "requires", "ensures"):
            at = self.body_from(at)
        self.answers.append(self.answer(start, at))
        end = self.closure_body(place, at)
        self.answers.pop()
        return end

    def closure_body(self, place, at):
        if self.tokens[at] == "{":
            return self.body(at, "closure", place)
        number = self.mark("closure", place)
        end = self.until(at, {",", ";"})
        self.wrapped(number, at, end - 1)
        return end

    def tries(self, place):
        first = self.operand(place - 1)
        number = self.mark("? returns", place)
        self.mark("? goes on", place, self.block_end(place))
        how = "tried_some" if self.answers[-1] == "Option" else "tried"
        self.put(self.at[first][0], self.at[place - 1][1], f"{MARKS}::{how}({number}, ", ")")
        return place + 1

    def operand(self, last):
        """The first token of the expression that ends at a token, and which a ? is behind."""
        place = last
        while True:
            if self.tokens[place] == "?":
                place -= 1
                continue
            if place in self.opens:
                place = self.opens[place]
                ahead = self.tokens[place - 1]
                if ahead == "!":
                    place -= 2
                elif ahead == ">":
                    place -= 1
                elif re.match(r"\w", ahead) and ahead not in WORDS or ahead in (")", "]", "?"):
                    place -= 1
                    continue
            if self.tokens[place] == ">":
                depth = 0
                while True:
                    depth += {">": 1, "<": -1}.get(self.tokens[place], 0)
                    if not depth:
                        break
                    place -= 1
            if self.tokens[place - 1] in (".", "::"):
                place -= 2
                continue
            return place
