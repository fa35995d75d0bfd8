"""No program but `rooms` writes a row of an office: no statement of SQL in deploy/ does, outside the trials.

The keeper's own files, as mail.db, have tables of their own, and modules of their own that write them. No program is needed. This
run alone: /usr/bin/python3 deploy/trial/own_tables.py
"""

import ast
import re
import sys
import tempfile
from pathlib import Path

from stand import DEPLOY, check

TABLES = "room person choice word result move list round grade going".split()
# They write mail.db, also into a table whose name they put together.
OF_MAIL = {"mail_book.py", "mail_receipt_book.py"}
TRIALS = ("trial", "package/machine")  # which make offices, also of an earlier version
SPOKEN = {".md", ".po", ".svg", ".png", ".jpg"}  # texts for people, and pictures

VERBS = (r"\b(?:update(?:\s+or\s+\w+)?|(?:insert|replace)(?:\s+or\s+\w+)?\s+into|delete\s+from|alter\s+table"
         r"|drop\s+table(?:\s+if\s+exists)?)\s+")
WRITES = re.compile(VERBS + r"""["'`\[]?(?:main\W+)?(\w+)""", re.I)  # and which table
STATEMENT = re.compile(r"\b(?:update\s+\S+\s+set|(?:insert|replace)(?:\s+or\s+\w+)?\s+into|delete\s+from|drop\s+table|alter\s+table"
                       r"|vacuum(?!\s+into\b))\b", re.I)


def text_of(node):
    """The text of an expression, with {} in the place of what is known only later; nothing if it is no text."""
    if isinstance(node, ast.Constant):
        return node.value if isinstance(node.value, str) else ""
    if isinstance(node, ast.JoinedStr):
        return "".join(text_of(part) if isinstance(part, ast.Constant) else "{}" for part in node.values)
    if isinstance(node, ast.BinOp) and isinstance(node.op, ast.Add):
        return f"{text_of(node.left) or '{}'}{text_of(node.right) or '{}'}"
    return ""


def texts_of(code):
    """The texts of Python code, but for what it says of itself."""
    tree = ast.parse(code)
    spoken = {id(node.value) for node in ast.walk(tree) if isinstance(node, ast.Expr) and isinstance(node.value, ast.Constant)}
    return [text for node in ast.walk(tree) if id(node) not in spoken and (text := text_of(node))]


def is_python(file, text):
    """Whether a file is a program of Python."""
    return file.suffix == ".py" or text.startswith("#!") and "python" in text.partition("\n")[0]


def written_by(file):
    """The statements of a file that write an office's table, or may do so."""
    text = file.read_text(encoding="utf-8", errors="replace")
    found = []
    for one in texts_of(text) if is_python(file, text) else text.splitlines():
        if file.name in OF_MAIL:
            found += [write[0] for write in WRITES.finditer(one) if write[1].lower() in TABLES]
        elif statement := STATEMENT.search(one):
            found.append(statement[0])
    return found


def written_in(folder):
    """The same of all files of a folder, but for the trials, by the names of these files."""
    files = [one for one in sorted(folder.rglob("*")) if one.is_file() and one.suffix not in SPOKEN
             and not any(one.is_relative_to(folder / trial) for trial in TRIALS) and "__pycache__" not in one.parts]
    return {str(file.relative_to(folder)): found for file in files if (found := written_by(file))}


# What must not be there, each as the whole of a file with this name.
PLANTED = {
    "office/program.py": 'database.execute("UPDATE person SET name = ?")', "office/a.py": "q = ('INSERT INTO ' 'list VALUES (1)')",
    "office/b.py": 'q = f"DELETE FROM {table}"', "office/c.py": 'q = "delete " + "from going"', "office/d.py": 'run("VACUUM")',
    "office/e.py": 'q = "INSERT OR REPLACE INTO room VALUES (1)"', "office/f.py": 'q = "REPLACE INTO word VALUES (1)"',
    "office/mail_book.py": 'q = f"UPDATE main.person SET passkey = {key}"',
    "rooms-back": "#!/usr/bin/python3\nq = 'DROP TABLE grade'",
    "package/tidy.sh": 'sqlite3 "$file" "UPDATE round SET phase = 1"',
}
# And what may be.
MAY_BE = {
    "office/mail_book.py": 'q = f"DELETE FROM {table} WHERE person = ?", "UPDATE run SET state = ?"',
    "office/anew.py": '"""To VACUUM and to UPDATE person SET is not for it."""\ndatabase.execute("VACUUM INTO ?")',
    "office/rows.py": 'q = "SELECT room FROM choice"', "trial/stand.py": 'q = "INSERT INTO room VALUES (?, 0)"',
    "README.md": "DELETE FROM room",
}


def found_in(files):
    """What is found in files with these texts."""
    with tempfile.TemporaryDirectory() as folder:
        for name, text in files.items():
            (Path(folder) / name).parent.mkdir(exist_ok=True)
            (Path(folder) / name).write_text(text, encoding="utf-8")
        return written_in(Path(folder))


def try_own_tables():
    """Looks into deploy/, and shows first that such a statement would be found."""
    found = found_in(PLANTED)
    check("a statement that writes an office's table is found in each kind of file", found.keys() == PLANTED.keys(),
          PLANTED.keys() - found.keys())
    check("and none where there is none", not found_in(MAY_BE), found_in(MAY_BE))
    found = written_in(DEPLOY)
    check("no program but `rooms` writes a row of an office", not found, found)


if __name__ == "__main__":
    if len(sys.argv) != 1:
        sys.exit("usage: /usr/bin/python3 deploy/trial/own_tables.py")
    try_own_tables()
