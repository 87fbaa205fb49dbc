"""Which lines of a shell are one field: by examples, of random texts, and as bash itself reads them."""
import os
import random
import shutil
import subprocess
import tempfile
import unittest
from typing import List, Tuple

from tmhost_fences.fields import LINE_END, groups, language_in

TEXTS = int(os.environ.get("TMHOST_DOCUMENTS", "150"))
AT_ONCE = 50  # texts that one bash evaluates

DOCUMENTS: List[Tuple[str, List[str]]] = [
    ("cat > notes.txt <<'EOF'\ntouch created\nEOF\nls", ["cat > notes.txt <<'EOF'|touch created|EOF", "ls"]),
    ("cat <<A <<-B; x\na\nA\n\tb\n\tB\nls", ["cat <<A <<-B; x|a|A|\tb|\tB", "ls"]),
    ('cat <<"A B" && y << \\C\n\nA\nA B\n C\nC\nls', ['cat <<"A B" && y << \\C||A|A B| C|C', "ls"]),
    ("cat <<< x\nls <<<'y'\nz", ["cat <<< x", "ls <<<'y'", "z"]), ("echo '<<A' \"<<B\" \\<<C\nx\nls # <<D\ny", ["echo '<<A' \"<<B\" \\<<C", "x", "ls # <<D", "y"]),
    ("# it's <<A\nx\nx#<<A\nA\ny", ["# it's <<A", "x", "x#<<A|A", "y"]), ("echo $((1<<2)) $(( x << y ))\nx\n((x <<= 2))\ny", ["echo $((1<<2)) $(( x << y ))", "x", "((x <<= 2))", "y"]),
    ("echo $[1<<2] $[ 1 << 3 ]\na[1<<2]=5\nls", ["echo $[1<<2] $[ 1 << 3 ]", "a[1<<2]=5", "ls"]),
    ("cat <<A\na\\\nA\nA\ncat <<'A'\na\\\nA\nls", ["cat <<A|a\\|A|A", "cat <<'A'|a\\|A", "ls"]), ("cat <<A\na\\\\\nA\nls", ["cat <<A|a\\\\|A", "ls"]),
    ("cat <<A |\nit's {\nA\nwc\nls", ["cat <<A ||it's {|A|wc", "ls"]), ("(cat <<A)\na\nA\nls", ["(cat <<A)|a|A", "ls"]), ("x=$(cat <<A\n)\nA\n)\nls", ["x=$(cat <<A|)|A|)", "ls"]),
    ("x=\"$(cat <<A\nit's \" )\nA\n)\"\nls", ["x=\"$(cat <<A|it's \" )|A|)\"", "ls"]), ("while read x; do\n  y\ndone <<A\n1\nA\nls", ["while read x; do|  y|done <<A|1|A", "ls"]),
    ("cat <<A\nx\n\nls", ["cat <<A|x||ls"]), ("{ cat <<A\nx\nls\n", ["{ cat <<A|x|ls"]), ("x <<A", ["x <<A"]), ("cat <<A\nx\n A\nAA\nA \nls", ["cat <<A|x| A|AA|A |ls"]),
]
STRINGS: List[Tuple[str, List[str]]] = [
    ("x='a\n<<b\n\n'\nls", ["x='a|<<b||'", "ls"]), ('x="a\\"\n`b`\n"\nls', ['x="a\\"|`b`|"', "ls"]), ("x='\\'\nls", ["x='\\'", "ls"]), ("x=\\'\nls\ny=\\\"\nz", ["x=\\'", "ls", 'y=\\"', "z"]),
    ("x=$'it\\'s\n'\nls", ["x=$'it\\'s|'", "ls"]), ("x=\"it's\"\nls", ["x=\"it's\"", "ls"]), ("x='\"'\nls", ["x='\"'", "ls"]), ("echo 'a\nls", ["echo 'a|ls"]), ('( echo "a\nls', ['( echo "a|ls']),
    ("x=\"${y:-it's}\"\nls", ["x=\"${y:-it's}\"", "ls"]), ("x=${y:-'\n'}\nls", ["x=${y:-'|'}", "ls"]), ("x=`a\nb`\nls", ["x=`a|b`", "ls"]), ('x="$(y "\n")"\nls', ['x="$(y "|")"', "ls"]),
]
BRACKETS: List[Tuple[str, List[str]]] = [
    ("x=$(\ny\n)\nls", ["x=$(|y|)", "ls"]), ("(\nx\n)\n{\ny\n}\nls", ["(|x|)", "{|y|}", "ls"]), ("f()\n{\nx\n}\nfunction g {\ny\n}\nf", ["f()|{|x|}", "function g {|y|}", "f"]),
    ("x=(\nif\n# it's (\n)\nls", ["x=(|if|# it's (|)", "ls"]), ("x=$(\ncase x in\na) b;;\n(c|if) d;;\nesac\n)\nls", ["x=$(|case x in|a) b;;|(c|if) d;;|esac|)", "ls"]), ("x)\ny\n}\nls", ["x)", "y|}", "ls"]),
    ("for x in a\ndo\ny\ndone\nls", ["for x in a|do|y|done", "ls"]), ("if x; then\ny\nelif z\nthen\ny\nfi\nls", ["if x; then|y|elif z|then|y|fi", "ls"]), ("for ((i=0; i<3; i++)) {\nx\n}\nls", ["for ((i=0; i<3; i++)) {|x|}", "ls"]),
    ("echo if do case {a,b} {\nls\ndone.sh\nod -c x\nend", ["echo if do case {a,b} {", "ls", "done.sh", "od -c x", "end"]), ("x |\n\n# y\nz &&\n(a) ||\nb\nc", ["x |||# y|z &&|(a) |||b", "c"]),
    ("x \\\ny\n# \\\nz\nx=\nls", ["x \\|y", "# \\", "z", "x=", "ls"]), ("echo ${#x} $# {\nls\n>|x\nls", ["echo ${#x} $# {", "ls", ">|x", "ls"]), ("", []),
]
# What stands in here-documents and in texts. None ends one.
BODIES = ["touch created", "it's", "$((1 + 1))", "# a remark", "<<E", "<<'E'", "", "  indented", "\tindented", "{", "(", ")", "}", "done", "fi", "E E", "esac", "cat <<E", "if true; then", "a |", "$(echo a)", "`echo b`", "${x:-c}"]
LITERALS = [*BODIES, "a \\", "$(", "`", '"', "${", "\\"]
COMMANDS = ["echo a", "printf '%s;' b c", "x=$x.d", "echo \"$x\"", "echo \\' # it's", "# it's <<E", "cat <<< \"$x\"", "echo $((1 << 2)) ${#x}", "((x = 1 << 3))", "echo 'e' \"'\" {f,g}", "echo h#'<<E'", "echo $[1<<2]", "a[1<<2]=5", "wc -c < /dev/null"]


def fields_of(code: str) -> List[str]:
    return [group.input.replace(LINE_END, "\n") for group in groups(code.split("\n"), language_in(["tmhost-sh"]))]


class Random:
    """Random commands, each of which is one field."""

    def __init__(self, seed: int) -> None:
        self.chance = random.Random(seed)

    def lines(self, of: List[str], most: int = 4) -> str:
        return "".join(self.chance.choice(of) + "\n" for _ in range(self.chance.randrange(most)))

    def document(self) -> str:
        operator, end, is_literal = self.chance.choice([("<<E", "E", False), ("<<'E'", "E", True), ('<< "E"', "E", True), ("<<-E", "\tE", False), ("<<-\\E", "\t\tE", True), ("<<'E F'", "E F", True)])
        after = self.chance.choice(["", "; echo z", " | wc -c", " # it's <<X", " && echo \"y\nw\"", " |\nwc -l"])
        first, _, rest = after.partition("\n") if after.startswith(" |\n") else (after, "", "")
        return f"cat {operator}{first}\n{self.lines(LITERALS if is_literal else BODIES)}{end}{self.chance.choice(['', chr(10)]) if rest else ''}" + (f"\n{rest}" if rest else "")

    def two(self) -> str:
        return f"cat <<A; cat <<-'B' - <<C\n{self.lines(BODIES)}A\n{self.lines(LITERALS)}\tB\n{self.lines(BODIES)}C"

    def text(self) -> str:
        body = self.lines(["a", "b <<E", "# c", "(", ")", "fi", "", "\\\\", "{"])
        return self.chance.choice([f"echo '{body}\"'", f"echo \"{body}'\"", f"x=\"{body}$(echo '\"'\n)\"", f"echo $'{body}\\'' d", f"echo \"${{x:-{body.replace('}', '')}}}\""])

    def nested(self, depth: int) -> str:
        inner = "\n".join(self.command(depth - 1) for _ in range(self.chance.randint(1, 2))) + "\n:"
        begin, end = self.chance.choice([
            ("(\n", "\n)"), ("{\n", "\n}"), ("x=$(\n", "\n)"), ("echo \"$(\n", "\n)\""), ("if true; then\n", "\nfi"), ("for i in 1 2\ndo\n", "\ndone"), ("f() {\n", "\n}"), ("f()\n{\n", "\n}; f"), ("case a in\na)\n", "\n;;\nesac"),
            ("{ echo a\n", "\n} |\ncat"), ("false ||\n{\n", "\n}"), ("cat <(\n", "\n)"),
        ])
        return begin + inner + end

    def command(self, depth: int = 2) -> str:
        kind = self.chance.randrange(6)
        if kind == 0 and depth:
            return self.nested(depth)
        return self.document() if kind == 1 else self.two() if kind == 2 else self.text() if kind == 3 else self.chance.choice(COMMANDS)


def quoted(text: str) -> str:
    return "'" + text.replace("'", "'\\''") + "'"


def said(texts: List[List[str]]) -> List[bytes]:
    """What bash prints of each text, which it evaluates in parts, by itself and in a folder of its own; and which files there are then."""
    scripts = ["(mkdir $1; cd $1\n" + "\n".join(f"eval {quoted(part)}" for part in parts) + "\nls)" for parts in texts]
    with tempfile.TemporaryDirectory() as folder:
        script = "".join(f"set -- {at}\n{one} 2>&1 </dev/null\nprintf '\\0'\n" for at, one in enumerate(scripts))
        done = subprocess.run(["bash", "-s"], input=script.encode(), stdout=subprocess.PIPE, stderr=subprocess.STDOUT, cwd=folder, check=True, timeout=300)
    return done.stdout.split(b"\0")[:-1]


class Shell(unittest.TestCase):
    def test_examples(self) -> None:
        for code, wanted in [*DOCUMENTS, *STRINGS, *BRACKETS]:
            self.assertEqual([field.replace("\n", "|") for field in fields_of(code)], wanted, code)

    def test_which_sessions_are_a_shell(self) -> None:
        """A shell that is given a script evaluates no lines itself, and one that another language stands beside isn't asked."""
        for words, wanted in (
            ("tmhost-sh", "sh"), ("tmhost-sh --seconds 9", "sh"), ("bash", "sh"), ("/bin/dash -i", "sh"), ("adapters/prompted.py sh", "sh"), ("tmhost-jupyter bash", "sh"), ("env A=1 /bin/sh", "sh"), ("sh lines.sh", ""),
            ("bash -u lines.sh", ""), ("/bin/sh adapters/python", "python"), ("zsh", ""), ("tmhost-gp sh", "gp"), ("x.sh", ""),
        ):
            self.assertEqual(language_in(words.split()), wanted, words)

    def test_what_is_longer_than_a_field(self) -> None:
        """It stays one input, which no field takes."""
        body = ["touch created"] * 300
        for code in (["cat <<E", *body, "E", "ls"], ["x='", *body, "'", "ls"], ["x=$(", *body, ")", "ls"]):
            first, last = groups(code, "sh")
            size = len("\n".join(code[:-1])) + 2 * (len(code) - 2)
            self.assertEqual((first.misfit, last.input), (f"refused: it has {size:,} bytes (each end of a line counts three), and a field has at most 4,095: cut it into several, or load it from a file", "ls"))

    def test_random_commands(self) -> None:
        """Each is a field."""
        for seed in range(TEXTS):
            made = Random(seed)
            commands = [made.command() for _ in range(made.chance.randint(1, 5))]
            self.assertEqual(fields_of("\n".join(commands)), commands, seed)

    def test_hostile_texts(self) -> None:
        """Whatever stands there, each line is in one field, in its order, and nothing takes long."""
        words = ["<<", "<<-", "E", "'", '"', "$(", "${", "$((", "((", ")", "}", "`", "\\", "\n", "\n", "#", "case", "esac", "if", "fi", " ", ";", "|", "$'", "=("]
        for seed in range(10 * TEXTS):
            chance = random.Random(seed)
            code = "".join(chance.choice(words) for _ in range(chance.randrange(40)))
            found = "\n".join(fields_of(code)).split("\n")
            self.assertEqual([line for line in found if line.strip()], [line for line in code.split("\n") if line.strip()], seed)
        for word in ("$(", '"$(', "${", "((", "if ", "case ", "(", "<<E ", "'", "\\\n", "|\n", "if x\n"):
            code = word * 5_000
            self.assertTrue("".join(fields_of(code)).strip(), word)

    @unittest.skipUnless(shutil.which("bash"), "there is no bash")
    def test_bash_reads_the_same_of_fields_as_of_the_text(self) -> None:
        first = DOCUMENTS[0][0]
        self.assertEqual(said([[first], fields_of(first)]), [b"notes.txt\n" * 2] * 2)
        for begin in range(0, TEXTS, AT_ONCE):
            codes = []
            for seed in range(begin, min(begin + AT_ONCE, TEXTS)):
                made = Random(seed + 1_000_000)
                codes.append("\n".join(made.command() for _ in range(made.chance.randint(1, 5))))
            for code, whole, fields in zip(codes, said([[code] for code in codes]), said([fields_of(code) for code in codes])):
                self.assertEqual(fields, whole, code)
                self.assertNotIn(b"created", whole.split(b"\n"), code)
