"""second_lines.py: the lines that explain an exit on the standard error, read from their definitions.

`explained` (sd_command_line, specs/Explained, with specs/Reasons) is evaluated for each status: an `if` and a function
with several equations give one line for each of their cases. A value that is no literal is written in capital letters,
and a definition of HELD by its name there, with the texts that it stands for apart."""

import os
import re

TOP = os.path.dirname(os.path.dirname(os.path.realpath(__file__)))
CODES = "crates/sd_command_base/specs/Exits.antt"
SPECS = ["crates/sd_command_line/specs/Explained.antt", "crates/sd_command_line/specs/Reasons.antt"]
# What a value is called in a line, and a number by the variable that has it.
VALUES = {"decimal": "N", "escaped": "TEXT", "meaning_of": "..", "operand_name": "NAME", "quoted": "LINE"}
NUMBERS = {"d": "D", "leaf": "U", "line": "M", "packet": "K"}
# What a definition with many texts is called.
HELD = {"cause_text": "CAUSE", "range_form": "FORM", "site_form": "FORM"}
# The name of the argument, by the word that says which it is, or else by the status.
NAMES = {"book_argument": "BOOK", "card_word": "CARD", "clear_word": "CLEAR", "site_word": "SITE", "stream_word": "STREAM",
         "BadCard": "CARD", "BadOut": "OUT", "BadSite": "SITE", "Usage": "OUT"}
# The variables that have the first word of a command line, or the word after help.
WORDS = {"name", "topic", "word"}
TOKEN = re.compile(r'"(?:[^"\\]|\\.)*"|\+\+|[()λ]|==|&&|\|\||[^\s()"]+')


def read(path):
    with open(f"{TOP}/{path}", encoding="utf-8") as file:
        return file.read()


def definitions(text):
    """The equations of each definition: its patterns and its body, as tokens."""
    found = {}
    for item in re.split(r"\n(?=\S)", re.sub(r"(?m)^ *--.*$", "", text)):
        tokens = TOKEN.findall(item)
        if "=" in tokens and item[0].islower() and not item.startswith(("use ", "abbrev ", "unfoldable ", "pub ")):
            at = tokens.index("=")
            found.setdefault(tokens[0], []).append((groups(tokens[1:at]), tokens[at + 1 :]))
    return found


def groups(tokens):
    """The tokens cut at the outermost level: a word or what is in brackets."""
    parts, depth = [], 0
    for token in tokens:
        if depth == 0:
            parts.append([])
        depth += (token == "(") - (token == ")")
        parts[-1].append(token)
    return [part[1:-1] if part[0] == "(" and part[-1] == ")" else part for part in parts]


def cut(tokens, word):
    """What stands before and behind the first such token at the outermost level, or None."""
    depth, ifs = 0, 0
    for at, token in enumerate(tokens):
        depth += (token == "(") - (token == ")")
        if depth == 0 and token == word and ifs <= 0:
            return tokens[:at], tokens[at + 1 :]
        ifs += (depth == 0) * ((token == "if") - (token == "else")) if word == "else" else 0
    return None


class Texts:
    """The evaluation: a value is the list of texts that it may be, each once."""

    def __init__(self):
        self.defined = definitions("\n".join(map(read, SPECS)))

    def of(self, tokens, known):
        """The texts of an expression; what is known of a variable is an expression with its own."""
        while len(groups(tokens)) == 1 and tokens[0] == "(":
            tokens = tokens[1:-1]
        if tokens[0] == "if":
            _, rest = cut(tokens, "then")
            yes, no = cut(rest, "else")
            return once(self.of(yes, known) + self.of(no, known))
        if parts := cut(tokens, "++"):
            return once([a + b for a in self.of(parts[0], known) for b in self.of(parts[1], known)])
        return self.call(groups(tokens), known)

    def call(self, parts, known):
        """The texts of a word with its arguments."""
        head, given = parts[0][0], [(part, known) for part in parts[1:]]
        if head == "codes":
            return [parts[1][0][1:-1].replace('\\"', '"').replace("\\n", "\n")]
        if head == "[]":
            return [""]
        if head in known:
            tokens, outer = known[head]
            if tokens[0] == "λ":
                at = tokens.index(".") if "." in tokens else 1
                return self.of(tokens[at + 1 :], outer)
            return self.of(tokens + [token for part in parts[1:] for token in ["(", *part, ")"]], outer)
        if head == "decimal":
            return [NUMBERS.get(parts[1][-1] if len(parts[1]) == 1 else "", VALUES[head])]
        if head == "escaped":
            return ["WORD" if parts[1][-1] in WORDS else VALUES[head]]
        if head in VALUES or head in HELD:
            return [VALUES.get(head) or HELD[head]]
        if head not in self.defined:
            return ["WORD" if head in WORDS else ".."]
        return self.cases(head, given)

    def cases(self, name, given):
        """The texts of all equations of a definition, for these arguments."""
        texts = []
        for patterns, body in self.defined[name]:
            known = {pattern[0]: it for pattern, it in zip(patterns, given) if len(pattern) == 1}
            texts += self.of(body, known)
        return once(texts)


def once(texts):
    return list(dict.fromkeys(texts))


def codes():
    """The number of each status."""
    return {status: int(number) for status, number in re.findall(r"^code_of \(?(\w+).*\)? = (\d+)$", read(CODES), re.M)}


def table():
    """The rows of the table: an exit or what stands for several texts, and a line."""
    texts, numbers, rows = Texts(), codes(), []
    for patterns, body in texts.defined["explained"]:
        status = patterns[-1][0]
        if status in numbers:
            name = next((NAMES[it] for it in [*body, status] if it in NAMES), "NAME")
            lines = [text.strip("\n") for text in texts.of(body, {}) if text]
            # a file that is no argument has no name: its lines are those of arguments but for that
            named = {text for text in lines if "NAME TEXT:" in text}
            lines = [text for text in lines if text.replace("WORD:", "NAME TEXT:") not in named - {text}]
            rows += [(numbers[status], re.sub(r"\bNAME\b", name, text)) for text in lines]
    rows.sort(key=lambda row: row[0])
    for name in dict.fromkeys(HELD.values()):
        found = once([text for it, held in HELD.items() if held == name and it in texts.defined
                      for text in texts.cases(it, []) if text != name])
        rows += [(name, text) for text in found]
    return rows


def markdown():
    """The table."""
    return "\n".join(["| Exit | Second line |", "|---|---|", *(f"| {what} | `{text}` |" for what, text in table()), ""])
