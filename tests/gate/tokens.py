"""Cuts a source of Rattle into its words, numbers and signs.

Comments, clauses and ghost items are dropped; a text, and a character, is one token `""`.
"""
import re

TOKEN = re.compile(r"""
    (?P<gone>\s+|//[^\n]*)
  | (?P<text>b?r(?P<h>\#*)".*?"(?P=h)|b?"(?:\\.|[^"\\])*"|b?'(?:\\u\{\w+\}|\\x\w\w|\\.|[^\\'\n])')
  | (?P<life>'\w+)
  | (?P<word>[^\W\d]\w*)
  | (?P<number>\d\w*(?:\.\d\w*)?)
  | (?P<sign>=>|->|::|==|!=|<=|>=|&&|\|\||\.\.=|\.\.|.)
""", re.VERBOSE | re.DOTALL)
CLAUSE = re.compile(r"(?:ensures|requires)\b\*?\s*(?:\w+\s*)?(?=\{)")
GHOST = re.compile(r"ghost\s+use\b[^;]*;|ghost\s+\w+\s*[:=]\s*(?=\{)")
# Where the body of a function opens, as `rt fmt` lays it out.
OPENS = re.compile(r"^ *(?:\{|(?:pub(?:\(\w+\))? )?(?:const )?fn \w+[^{;]*\{)$", re.MULTILINE)
# The modules of a crate that are read for its tests alone.
TESTS = re.compile(r"#\[cfg\(test\)\]\s*(?:pub(?:\(\w+\))?\s+)?mod\s+(\w+)\s*;")


class Refused(Exception):
    pass


def past_braces(text, at):
    """Where the braces that open here are closed; texts between them don't count."""
    depth = 0
    while at < len(text):
        if text[at] == '"':
            at = re.compile(r'"(?:\\.|[^"\\])*"', re.DOTALL).match(text, at).end()
            continue
        depth += (text[at] == "{") - (text[at] == "}")
        at += 1
        if depth == 0:
            return at
    raise Refused("a clause that is not closed")


def past_comment(text, at):
    depth = 0
    while True:
        depth += (text[at:at + 2] == "/*") - (text[at:at + 2] == "*/")
        at += 2 if text[at:at + 2] in ("/*", "*/") else 1
        if depth == 0 or at >= len(text):
            return at


def tokens_of(text):
    """The words, numbers and signs of a source, each with its line."""
    at, line, found = 0, 1, []
    while at < len(text):
        begun = at
        ahead = text.startswith(("ensures", "requires", "ghost"), at)
        if text.startswith("/*", at):
            at = past_comment(text, at)
        elif ahead and (clause := CLAUSE.match(text, at)):
            at = past_braces(text, clause.end())
        elif ahead and (ghost := GHOST.match(text, at)):
            at = ghost.end()
            if ghost[0][-1] != ";":
                at = past_braces(text, at)
                if default := re.compile(r"\s*=\s*(?=\{)").match(text, at):
                    at = past_braces(text, default.end())
                if end := re.compile(r"\s*;").match(text, at):
                    at = end.end()
        else:
            token = TOKEN.match(text, at)
            at = token.end()
            if token.lastgroup in ("word", "number", "sign", "life"):
                found.append((token[0], line))
            elif token.lastgroup == "text" or token["text"]:
                found.append(('""', line))
        line += text.count("\n", begun, at)
    return found


def carriers_in(text):
    """The structs that have a `NoMemory` and nothing else."""
    return re.findall(r"\bstruct (\w+)\((?:pub(?:\(crate\))? )?NoMemory\);", text)
