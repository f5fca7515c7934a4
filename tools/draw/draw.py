"""Draws the program of table.bin in the current folder, for tools/zap.

    draw.py PROGRAMS TITLE [--html] [--lines FILE | --state FILE]

Knows only what the kernel's programs print: the tree from zap_print's text, its figures from zap_check, the listing from zap_run, and from
zap_calls the state after each instant with the test that waits (L1). The table was accepted by zap_print before, so nothing is checked here;
a state that zap_calls refuses ends the drawing with its refusal, as `state refused NUMBER INDEX`.

How a state reads is document 01, "State": of each node whether it stands where the program is, and in which phase.
"""

import argparse
import json
import os
import re
import subprocess
import sys

HERE = os.path.dirname(os.path.abspath(__file__))
NO_NODE = "4096"

# What becomes of a node.
WAITING, RUNNING, NEXT, DONE = "waiting", "running", "next", "done"
NOT_BEGUN, NOT_TAKEN = "not begun", "not taken"

# The parts of a form, where they have names.
PARTS = {"When": ("then", "else"), "If": ("then", "else"), "Until": ("body", "handler")}

# The values that an instant is handed (L14), and the store that it is lent at first (L8), as zap_run does.
VALUES = "00" * 16
STORE = "00" * 32768


class Node:
    """A node of the program: what its text says, and where it stands in the tree."""

    def __init__(self, number, depth, part):
        self.number, self.depth, self.part = number, depth, part
        self.form, self.words, self.children = "", [], []

    @property
    def size(self):
        return 1 + sum(child.size for child in self.children)

    @property
    def label(self):
        return f"{self.form}({', '.join(self.words)})" if self.words else self.form


class Text:
    """The program's text, read from left to right."""

    NAME = re.compile(r"Jr\.(\w+)\(")

    def __init__(self, text):
        self.text, self.at, self.nodes = text, 0, []

    def program(self, depth=1, part=""):
        node = Node(len(self.nodes), depth, part)
        self.nodes.append(node)
        name = self.NAME.match(self.text, self.at)
        node.form, self.at = name.group(1), name.end()
        names = PARTS.get(node.form, ())
        while self.text[self.at] != ")":
            if self.text.startswith(", ", self.at):
                self.at += 2
            elif self.text.startswith("Jr.", self.at):
                k = len(node.children)
                node.children.append(self.program(depth + 1, names[k] if names else ""))
            else:
                node.words.append(self.word())
        self.at += 1
        return node

    def word(self):
        """A number, or a test with all that is in its brackets."""
        begun, level = self.at, 0
        while level > 0 or self.text[self.at] not in ",)":
            level += {"(": 1, ")": -1}.get(self.text[self.at], 0)
            self.at += 1
        return self.text[begun:self.at]


# ---- where a program stands
def standing(root, state):
    """What has become of each node in a state at rest, and a remark where its bytes say more."""
    words, remarks = {}, {}

    def all_below(node, word):
        words[node.number] = word
        for child in node.children:
            all_below(child, word)

    def here(node):
        """The program stands at this node or below it."""
        phase, _, high, low = state[4 * node.number:4 * node.number + 4]
        words[node.number], children = stands(node, phase)
        if node.form in ("Repeat", "RepeatExt") and phase == 1:
            remarks[node.number] = f"{256 * high + low} more to come"
        for child, word in zip(node.children, children):
            if word == RUNNING:
                here(child)
            else:
                all_below(child, word)

    here(root)
    return words, remarks


def stands(node, phase):
    """What has become of a node in this phase, and of its children."""
    if phase == 3:
        return DONE, (DONE,) * len(node.children)
    if node.form == "Await":
        return WAITING, ()
    if not node.children:
        return NEXT, ()
    if node.form == "Seq":
        return RUNNING, (RUNNING, NOT_BEGUN) if phase == 0 else (DONE, RUNNING)
    if node.form in ("When", "If"):
        return (
            # An If that has begun has chosen, so one in phase 0 waits for nothing.
            (WAITING if node.form == "When" else NEXT, (NOT_BEGUN, NOT_BEGUN)),
            (RUNNING, (RUNNING, NOT_TAKEN)),
            (RUNNING, (NOT_TAKEN, RUNNING)),
        )[phase]
    if node.form == "Until":
        return RUNNING, (RUNNING, NOT_BEGUN) if phase < 2 else (DONE, RUNNING)
    if node.form in ("Loop", "Repeat", "RepeatExt") and phase == 0:
        return NEXT, (NOT_BEGUN,)
    return RUNNING, (RUNNING,) * len(node.children)


def decided(node, word, state):
    """The test of this node has been decided since it waited."""
    phase = state[4 * node.number]
    return word == DONE or phase > 0 and node.form in ("When", "Until")


class Step:
    """An instant that was played, or where the program stands without one: a heading, and of each node a word and a remark."""

    def __init__(self, heading, listing="", words=None, remarks=None):
        self.heading, self.listing, self.words, self.remarks = heading, listing, words or {}, dict(remarks or {})
        self.marked = {number for number, word in self.words.items() if word == WAITING}

    def wait(self, nodes, state, number, event):
        """The first test that waited when the end was declared, and its event."""
        node = nodes[number]
        if decided(node, self.words[number], state):
            self.remarks[number] = f"waited for event {event}"
        else:
            self.marked.add(number)
            self.remarks[number] = f"waits for event {event}"


# ---- what the kernel's programs tell
class Kernel:
    """The kernel's programs, in a folder, each run on the table."""

    def __init__(self, programs):
        self.programs = programs

    def run(self, name, text=b""):
        return subprocess.run([os.path.join(self.programs, name)], input=text, stdout=subprocess.PIPE, check=True).stdout

    def figures(self):
        return self.run("zap_check").decode().split()[2:]

    def calls(self):
        return Calls(os.path.join(self.programs, "zap_calls"))


class Calls:
    """zap_calls, one call after the other."""

    def __init__(self, program):
        self.program = subprocess.Popen([program], stdin=subprocess.PIPE, stdout=subprocess.PIPE)
        with open("table.bin", "rb") as table:
            self.table = table.read().hex()

    def ask(self, *words):
        self.program.stdin.write(" ".join(words).encode() + b"\n")
        self.program.stdin.flush()
        return self.program.stdout.readline().decode().split()

    def row(self):
        """A row of as many places as an instant needs."""
        return "0000" * int(self.ask("check", self.table)[3]) or "-"

    def instant(self, state, events, row, store):
        return self.ask("instant", self.table, state.hex() or "-", events, VALUES, row, store)

    def close(self):
        self.program.stdin.close()
        self.program.wait()


def played(kernel, nodes, lines):
    """A step before the first line, and one after each."""
    calls = kernel.calls()
    row, state, store = calls.row(), bytes(4 * len(nodes)), STORE
    stood = {node.number: NOT_BEGUN for node in nodes}, {}
    steps = [Step("before the first line", "", *stood)]
    listing = kernel.run("zap_run", lines).decode().splitlines()
    for number, (line, listed) in enumerate(zip(lines.split(b"\n"), listing), 1):
        waits, heading = NO_NODE, f"after line {number}"
        if listed.split()[1].isdigit():
            heading += f", which hands in {line.decode() or 'nothing'}"
            answer = calls.instant(state, line.decode().replace(" ", ",") or "-", row, store)
            waits, event, state, store = answer[8], answer[9], bytes.fromhex(answer[10]), answer[12]
            stood = standing(nodes[0], state)
        step = Step(heading, listed, *stood)
        if waits != NO_NODE:
            step.wait(nodes, state, int(waits), event)
        steps.append(step)
    calls.close()
    return steps


def saved(kernel, nodes, state):
    """The one step of a saved state, which an instant must accept."""
    calls = kernel.calls()
    answer = calls.instant(state, "-", calls.row(), STORE)
    calls.close()
    if answer[0] != "0":
        print("state refused", *answer[:2])
        sys.exit()
    return [Step("saved state", "", *standing(nodes[0], state))]


# ---- plain text
def as_text(nodes, step):
    if step.words:
        yield step.heading
        yield from filter(None, [step.listing])
        yield ""
    phase = f"{'phase':<9}  " if step.words else ""
    yield f"  node  size  depth  {phase}program"
    for node in nodes:
        mark = ">" if node.number in step.marked else " "
        phase = f"{step.words[node.number]:<9}  " if step.words else ""
        part = f"{node.part}: " if node.part else ""
        remark = f"   {step.remarks[node.number]}" if node.number in step.remarks else ""
        yield f"{mark} {node.number:4}  {node.size:4}  {node.depth:5}  {phase}{'  ' * (node.depth - 1)}{part}{node.label}{remark}"


# ---- a page
def as_page(title, figures, nodes, steps):
    """The page of page.html with what it shows put in."""
    shown = {
        "title": title,
        "figures": figures,
        "nodes": [[node.number, node.size, node.depth, node.part, node.form, node.words] for node in nodes],
        "steps": [
            {
                "heading": step.heading,
                "listing": step.listing,
                "words": [step.words.get(node.number, "") for node in nodes],
                "remarks": step.remarks,
                "marked": sorted(step.marked),
            }
            for step in steps
        ],
    }
    with open(os.path.join(HERE, "page.html"), encoding="utf-8") as page:
        return page.read().replace("DATA", json.dumps(shown).replace("<", "\\u003c"), 1)


def main():
    words = argparse.ArgumentParser()
    words.add_argument("programs")
    words.add_argument("title")
    words.add_argument("--html", action="store_true")
    words.add_argument("--lines")
    words.add_argument("--state")
    given = words.parse_args()
    kernel = Kernel(given.programs)
    text = Text(kernel.run("zap_print").decode())
    text.program()
    if given.lines:
        with open(given.lines, "rb") as lines:
            steps = played(kernel, text.nodes, lines.read())
    elif given.state:
        with open(given.state, "rb") as state:
            steps = saved(kernel, text.nodes, state.read())
    else:
        steps = [Step("the program")]
    if given.html:
        print(as_page(given.title, kernel.figures(), text.nodes, steps), end="")
    else:
        print("\n".join(as_text(text.nodes, steps[-1])))


if __name__ == "__main__":
    main()
