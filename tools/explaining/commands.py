"""The words of a command: the files that it names, or why they are refused, by docs/formats.md."""

INPUTS = {
    "check": ["program"], "record": ["program", "state", "requests"], "audit": ["program", "state", "trace", "report"],
    "replay": ["program", "state", "trace", "schedule"],
}
OUTPUTS = {"record": ["trace", "report"], "audit": ["schedule"]}
OPTIONS = {"record": ["--workers", "--turns", "--seed"], "audit": ["--workers"]}
RANGES = {"--workers": (1, 16), "--seed": (0, 2**64 - 1)}
HEADS = {
    "ok": "check", "recorded": "record", "accepted": "audit", "agrees": "replay", "rejected": "audit", "differs": "replay",
    "requests": "record", "turns": "record", "schedule": "replay",
}
"""The command that a line's first word tells."""


class Refused(Exception):
    """Why these words aren't taken."""


class Command:
    """A command with the names of its files by their roles, and its options."""

    def __init__(self, name, names, options):
        self.name, self.options = name, options
        self.inputs = dict(zip(INPUTS[name], names))
        self.outputs = dict(zip(OUTPUTS.get(name, []), names[len(INPUTS[name]) :]))
        if "--turns" in options:
            self.inputs["turns"] = options["--turns"]

    def workers(self):
        """How many threads answer the jobs of a recording: with turns none but one."""
        return 1 if "turns" in self.inputs else int(self.options.get("--workers", 1))

    def label(self, role):
        """A file as it is called, with its role where the name doesn't say it."""
        name = self.inputs.get(role, self.outputs.get(role))
        return name if name else "''"


def places(name):
    return INPUTS[name] + OUTPUTS.get(name, [])


def command_of(words, line=None):
    """The command of these words, or of bare names of files for a line."""
    if words and words[0] in INPUTS:
        return read(words[0], words[1:])
    if line == "usage":
        raise Refused(no_command(words))
    return bare(words, line)


def no_command(words):
    if not words:
        return f"no command stands there; there are {', '.join(INPUTS)}"
    if words[0] in ("serve", "selftest"):
        return f"`{words[0]}` isn't built yet; there are {', '.join(INPUTS)}"
    return f"`{words[0]}` is no command; there are {', '.join(INPUTS)}"


def read(name, words):
    names, options, words = [], {}, list(words)
    only_places = False
    while words:
        word = words.pop(0)
        if only_places or word in ("", "-") or not word.startswith("-"):
            names.append(word)
        elif word == "--":
            only_places = True
        else:
            option(name, word, words, options)
    wanted = places(name)
    if len(names) != len(wanted):
        few = (
            f"{len(names)} of {len(wanted)} names stand there" if len(names) < len(wanted) else f"`{names[len(wanted)]}` is one "
            "name too many"
        )
        raise Refused(f"`{name}` takes {' '.join(wanted).upper()}: {few}")
    if name == "record" and names[3] == names[4]:
        raise Refused(f"the trace and the report would be written to one name, `{names[3]}`")
    return Command(name, names, options)


def option(name, word, words, options):
    """Takes an option and its value."""
    key, sign, value = word.partition("=")
    if key not in OPTIONS.get(name, []):
        has = OPTIONS.get(name)
        more = f", but {', '.join(has)}" if has else "; a name that begins with - goes after a word --"
        raise Refused(f"`{name}` has no option `{key}`{more}")
    if key in options:
        raise Refused(f"`{key}` stands twice")
    if not sign:
        if not words or words[0].startswith("-") and words[0] != "-":
            raise Refused(f"`{key}` has no value")
        value = words.pop(0)
    if key in RANGES:
        least, most = RANGES[key]
        is_number = value.isascii() and value.isdigit() and (value == "0" or value[0] != "0")
        if not is_number or not least <= int(value) <= most:
            raise Refused(f"`{key}` takes a number from {least} to {most}, in digits without a sign or zeros in front, and not `{value}`")
    options[key] = value


def bare(words, line):
    """The command of bare names: the line tells it, or else how many there are."""
    head = (line or "").replace(":", " ").split(" ")[0]
    fitting = [name for name in INPUTS if len(places(name)) == len(words)]
    if head in HEADS:
        fitting = [name for name in fitting if name == HEADS[head]]
    elif head == "trace" and "too long" not in (line or ""):
        fitting = [name for name in fitting if name in ("audit", "replay")]
    elif head in ("program", "state") and "record" in fitting:
        fitting = ["record"]
    if head == "report" and "absent" in (line or ""):
        fitting = [name for name in fitting if name == "audit"]
    if len(fitting) != 1:
        raise Refused(misfit(words, head, fitting))
    return Command(fitting[0], words, {})


def misfit(words, head, fitting):
    if not words:
        return "no command and no names"
    if fitting:
        return f"these are names for {' or '.join(fitting)}: put the command's name first"
    if head in HEADS:
        name = HEADS[head]
        return (
            f"this line is of `{name}`, which takes {' '.join(places(name)).upper()}: {len(words)} of {len(places(name))} names "
            "stand there"
        )
    return f"`{words[0]}` is no command, and no command takes {len(words)} names for this line"
