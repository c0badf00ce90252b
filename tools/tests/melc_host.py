"""An application in C as a program of this machine, and on the card: for tests that compare the two.

The variables become members of structs that are packed and big endian, so that gcc lays them out as the card does. All else of the file is given
to gcc as it is.
"""

import copy
import os
import pathlib
import subprocess
import sys
import tempfile

TOOLS = pathlib.Path(__file__).resolve().parent.parent
sys.path[:0] = [str(TOOLS / "mel"), str(TOOLS)]

from card import program_path  # noqa: E402
from melc import source  # noqa: E402
from melc.faults import Faults, at_of  # noqa: E402
from melc.main import compiled  # noqa: E402
from pycparser import c_ast, c_generator  # noqa: E402

HOST = TOOLS / "tests" / "melc_host.h"
HEADER = ("CLA", "INS", "P1", "P2", "P3", "Lc", "Le", "La", "SW")
# Which arguments of a call are addresses.
ADDRESSES = {"memcpy": (0, 1), "memcmp": (0, 1), "memset": (0,), "multosMemoryCopy": (1, 2), "multosMemoryEqual": (1, 2)}


class Refused(Exception):
    """A program that melc refuses: what it wrote."""


class Names(c_ast.NodeVisitor):
    """Puts the struct of its class before each name of a variable, and makes addresses of arguments."""

    def __init__(self, homes, functions):
        self.homes, self.functions = homes, functions

    def changed(self, node):
        """What a node becomes."""
        if isinstance(node, c_ast.ID):
            return self.homes[node.name](node) if node.name in self.homes else node
        if isinstance(node, c_ast.StructRef):
            node.name = self.changed(node.name)
            return node
        if isinstance(node, c_ast.FuncCall):
            for place in ADDRESSES.get(node.name.name, ()) if node.args is not None else ():
                node.args.exprs[place] = self.address(node.args.exprs[place])
            if node.args is not None:
                places = ADDRESSES.get(node.name.name, ())
                node.args.exprs = [it if place in places else self.changed(it) for place, it in enumerate(node.args.exprs)]
            node.name.name = self.functions.get(node.name.name, node.name.name)
            return node
        for slot in node.__slots__:
            value = getattr(node, slot, None)
            if isinstance(value, c_ast.Node):
                setattr(node, slot, self.changed(value))
            elif isinstance(value, list):
                setattr(node, slot, [self.changed(it) if isinstance(it, c_ast.Node) else it for it in value])
        return node

    def address(self, node):
        """The address that an argument stands for."""
        inner = node.expr if isinstance(node, c_ast.UnaryOp) and node.op == "&" else node
        root = inner
        while not isinstance(root, c_ast.ID):
            root = root.name
        changed = self.changed(inner)
        text = c_generator.CGenerator().visit(changed)
        if root.name in self.homes:
            front, _, path = text.partition(".")
            return c_ast.ID(f"((BYTE *)&{front} + __builtin_offsetof(__typeof__({front}), {path}))")
        return c_ast.ID(f"((BYTE *)&({text}))")


def member(name, *way):
    """What names a member of a struct."""
    found = c_ast.ID(name)
    for it in way:
        found = c_ast.StructRef(found, ".", c_ast.ID(it))
    return found


def parts_of(path, number):
    """The declarations of a file for gcc: types, members of each class, initial values, and functions, named by the number of the program."""
    faults = Faults()
    read = source.read(str(path), faults)
    assert not faults.is_refused, faults.lines()
    made = c_generator.CGenerator()
    types, functions, memory, start, above = [], [], "", "0", []
    members, values = {"static": [], "session": [], "public": []}, []
    homes = {it: lambda _, it=it: member("pub", "header", it) for it in HEADER}
    for node in read.declarations:
        if source.is_own(at_of(node)):
            continue
        if isinstance(node, c_ast.Pragma):
            fields = node.string.split()
            memory = fields[0][3:] if fields[0].startswith("mel") else memory
            if fields[0] == "melpublic" and len(fields) > 1:
                start, above = fields[1], []
        elif isinstance(node, c_ast.FuncDef) or isinstance(node, c_ast.Decl) and isinstance(node.type, c_ast.FuncDecl):
            functions.append(node)
        elif isinstance(node, c_ast.Decl) and node.name is not None:
            text, inner = bare(made, node, types)
            homes[node.name] = lambda _, it=node.name, memory=memory: member("pub", f"in_{it}", it) if memory == "public" else member(f"mel{memory}", it)
            if memory == "public":
                gaps = "".join(f" BYTE gap_{it}[sizeof(struct at_{it})];" for it in above)
                types.append(f"struct at_{node.name} {{ {text}; }};")
                members["public"].append(f"struct {{ {f'BYTE front[{start}];' if start != '0' else ''}{gaps} {text}; }} in_{node.name};")
                above.append(node.name)
            else:
                members[memory].append(text + ";")
                if node.init is not None:
                    value = made.visit(node.init)
                    values.append(f".{node.name} = " + (f"{{ {value} }}" if isinstance(node.init, c_ast.InitList) else value))
        else:
            types.append(made.visit(node) + ";")
    own = {it.decl.name if isinstance(it, c_ast.FuncDef) else it.name for it in functions}
    names, body = Names(homes, {it: f"{it}_{number}" for it in own}), []
    for node in functions:
        decl = node.decl if isinstance(node, c_ast.FuncDef) else node
        kind = decl.type
        while not isinstance(kind, c_ast.TypeDecl):
            kind = kind.type
        kind.declname = f"{decl.name}_{number}"
        decl.name = kind.declname
        if isinstance(node, c_ast.FuncDef):
            node.body = names.changed(node.body)
        body.append(made.visit(node) + ("" if isinstance(node, c_ast.FuncDef) else ";"))
    return types, members, values, body


def bare(made, node, types):
    """The declaration of a variable as that of a member; a struct without a name gets one."""
    changed = copy.deepcopy(node)
    changed.init, changed.quals, changed.storage = None, [], []
    inner = changed.type
    while isinstance(inner, c_ast.ArrayDecl):
        inner = inner.type
    inner.quals, kind = [], inner.type
    if isinstance(kind, (c_ast.Struct, c_ast.Union)) and kind.decls is not None:
        kind.name = kind.name or f"of_{node.name}"
        text = made.visit(kind) + ";"
        types += [] if text in types else [text]
        kind.decls = None
    return made.visit(changed), inner


def host_text(paths):
    """The text that gcc compiles, of programs that have the same variables."""
    found = [parts_of(path, number) for number, path in enumerate(paths)]
    types, members, values, _ = found[0]
    return "\n".join([
        f'#include "{HOST}"', *types, f"struct melstatic {{ {' '.join(members['static']) or 'BYTE none[0];'} }};",
        f"struct melsession {{ {' '.join(members['session'])} BYTE none[0]; }};",
        f"static const struct melstatic first = {{ {', '.join(values)} }};", "static struct melstatic melstatic, waiting;",
        "static struct melsession melsession;",
        f"static union {{ BYTE bytes[1041]; struct {{ BYTE front[1028]; BYTE CLA, INS, P1, P2, P3; WORD Lc, Le, La, SW; }} header; "
        f"{' '.join(members['public'])} }} pub;", "#define HOST_PART 2", f'#include "{HOST}"', *(it for _, _, _, body in found for it in body),
        f"static void (*const mains[])(void) = {{ {', '.join(f'main_{it}' for it in range(len(paths)))} }};", "#undef HOST_PART", "#define HOST_PART 3",
        f'#include "{HOST}"', ""])


def on_host(plays, folder):
    """What programs answer: for each path with its commands, of each command the reply and the static bytes."""
    text, program = pathlib.Path(folder, "host.c"), pathlib.Path(folder, "host")
    text.write_text(host_text([path for path, _ in plays]), encoding="utf-8")
    made = subprocess.run(["gcc", "-O0", "-w", "-fwrapv", "-o", str(program), str(text)], stderr=subprocess.PIPE, text=True, check=False)
    assert made.returncode == 0, made.stderr + text.read_text(encoding="utf-8")
    given = "".join(f"p{number}\n" + "".join(f"{it}\n" for it in commands) for number, (_, commands) in enumerate(plays))
    done = subprocess.run([str(program)], input=given, stdout=subprocess.PIPE, text=True, check=True)
    answers = iter(done.stdout.splitlines())
    return [[next(answers) for _ in commands] for _, commands in plays]


def draft_of(path, name="app"):
    """The draft of a file."""
    faults, text = compiled(str(path), name, False)
    if text is None:
        raise Refused("\n".join(faults.lines()))
    return text


def on_card(plays):
    """What the card answers of drafts with their names and commands, in the same form."""
    lines = ["format", "power", "budget 65536"]
    for draft, name, commands in plays:
        text = draft.splitlines()
        lines += text[2:]
        lines += [f"select {name}", *(f"select {name}" if it == "select" else f"apdu {it}\ndump {name}" for it in commands), "power", f"delete {name}"]
    deck = subprocess.run([program_path("meldesk"), "deck"], input=("\n".join(lines) + "\n").encode(), stdout=subprocess.PIPE, stderr=subprocess.PIPE,
                          check=False)
    assert deck.returncode == 0, deck.stderr.decode() + "\n".join(lines)
    done = subprocess.run([program_path("melcard"), "play"], input=deck.stdout, stdout=subprocess.PIPE, check=False)
    assert done.returncode == 0, done.stdout.decode()
    answers, found = iter([it.partition(" ")[2] for it in done.stdout.decode().splitlines()][2:]), []
    for _, name, commands in plays:
        assert [next(answers), next(answers)] == ["9000", "9000"], name
        row = []
        for it in commands:
            answer = next(answers)
            row.append("selected" if it == "select" else f"{answer} {next(answers).partition(' ')[2]}".rstrip())
        found.append(row)
        assert next(answers).startswith("ready") and next(answers) == "9000", name
    return found


def verdicts(drafts):
    """What the stack checker says of the sections of drafts: lines of those that it refuses."""
    text = "\n".join(["format", "power", *("\n".join(it.splitlines()[2:]) for it in drafts)]) + "\n"
    done = subprocess.run([program_path("meldesk"), "check"], input=text.encode(), stdout=subprocess.PIPE, check=False)
    return [it for it in done.stdout.decode().splitlines() if " accept " not in it]


def differences(plays):
    """What differs between gcc and the card, of programs that have the same variables: paths with the name, the draft and commands of each."""
    refused = verdicts([draft for _, _, draft, _ in plays])
    if refused:
        return [f"check refuses {it}" for it in refused]
    with tempfile.TemporaryDirectory() as folder:
        native = on_host([(path, commands) for path, _, _, commands in plays], folder)
    card = on_card([(draft, name, commands) for _, name, draft, commands in plays])
    found = []
    for (path, name, _, commands), one, other in zip(plays, native, card):
        wrong = next((f"{name}: {command}: gcc {left}, card {right}" for command, left, right in zip(commands, one, other) if left != right), None)
        found += [wrong] if wrong is not None else []
    return found


def difference(path, commands, name="app", draft=None):
    """The first command of one program whose answers differ, with both; None if all agree."""
    found = differences([(path, name, draft_of(path, name) if draft is None else draft, commands)])
    return found[0] if found else None


os.environ.setdefault("LC_ALL", "C")
