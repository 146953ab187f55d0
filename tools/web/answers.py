"""What `tools/workbench` answers: the program's own commands, and scripts of `tools` that tell more of its answers."""

import re
from pathlib import Path

from web.runs import Ended

TOOLS = Path(__file__).resolve().parent.parent
# How a script is called here: its name and the words behind it. One with a `?` may be missing.
SCRIPTS = {
    "witness": ("witness", ["POLICY", "NAME?"]),
    "steps": ("history_facts.py", ["POLICY", "TRACE", "HISTORY?"]),
    "perfetto": ("to_perfetto", ["POLICY", "TRACE", "HISTORY"]),
}
WORDS = {"name": r"(?:B[1-4]|H[12]\.(?:enqueue|tick|yield|block))", "workers": r"[0-9]{1,2}"}
# What the front of the program says behind some answers, as `./ipanema` does.
FRONT = 'front="$1" program="$2"; shift 2; source "$front/speak.bash"; begin; answer "$program" "$@"'


class Wrong(Ended):
    """The values of a request aren't those of its command."""

    def __init__(self, words):
        super().__init__(400, words)


class Answers:
    """Answers requests by the program and by scripts, each within a turn and a folder of its own."""

    def __init__(self, runs, program, python, commands):
        self.runs, self.program, self.python = runs, program, python
        self.forms = {name: command["words"] for name, command in commands.items()}
        self.forms.update({name: words for name, (_, words) in SCRIPTS.items()})
        self.names = self.forms.keys()
        self.turn = runs.turn

    def texts_of(self, name):
        """The kinds of texts that the command takes."""
        return [kind for kind in (word.rstrip("?").lower() for word in self.forms[name]) if kind not in WORDS]

    def answer(self, name, values, client):
        """The status, what was written, and what was said beside, of the command on these values."""
        texts = {kind: values[kind] for kind in self.texts_of(name) if kind in values}
        words = [word for form in self.forms[name] for word in self.words_of(form, values)]
        with self.runs.room(texts) as place:
            done = self.runs.run([*self.caller(name), *words], place, client)
        if not 0 <= done.status < 128:
            raise Ended(500, "the program was ended by the system, at a limit or for another reason")
        output, said = (text.decode("utf-8", "replace") for text in (done.output, done.said))
        return {"status": done.status, "output": output, "said": said}

    def caller(self, name):
        """The words before those of the command: a script, or the program with its front."""
        if name in SCRIPTS:
            return [self.python, TOOLS / SCRIPTS[name][0]]
        return ["bash", "-pc", FRONT, "bash", TOOLS / "front", self.program, name]

    @staticmethod
    def words_of(form, values):
        """The word for a place of the command: a text is in the file of its kind."""
        kind = form.rstrip("?").lower()
        if kind not in values:
            if form.endswith("?"):
                return []
            raise Wrong(f"the request lacks its {kind}")
        if kind not in WORDS:
            return [kind]
        if not re.fullmatch(WORDS[kind], str(values[kind])):
            raise Wrong(f"the request has no {kind} that the command takes")
        return [str(values[kind])]
