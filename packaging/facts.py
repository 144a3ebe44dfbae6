"""What tools/package reads from the sources: commands, options and ranges of the programs, commands of the Python package.

Commands and options come from crates/command_line/src, the ranges and defaults of options from there and from
crates/cost_model/src, and descriptions from docs/fmm.1. If these do not agree, `Wrong` says how, so that no option is left out of the completions.
"""
import os
import re

WIDEST = 4_294_967_295
KINDS = {"NET": "file", "TRACES": "file", "CERT": "file", "N": "number", "T": "number", "SEED": "number"}
SHOWN = {"NET": "NETWORK", "CERT": "CERTIFICATE"}


class Wrong(Exception):
    """A fault that ends tools/package. The text says what is wrong."""


class Argument:
    """An argument of a command: its name in the manual page, whether it is a file, and the range if it is a number."""

    def __init__(self, name, ranges):
        if name not in KINDS:
            raise Wrong(f"packaging/facts.py does not say whether the argument {name} is a file or a number")
        self.name, self.is_file, self.range = SHOWN.get(name, name), KINDS[name] == "file", ranges.get(name)


class Option:
    """An option: its name, the name of its value, whether that is a file, its range, and its description."""

    def __init__(self, name, value, range_, text):
        self.name, self.value, self.is_file, self.range, self.text = name, value, range_ is None, range_, text


class Command:
    """A command: its name, its arguments in order, its options, and its description."""

    def __init__(self, name, arguments, options, text):
        self.name, self.arguments, self.options, self.text = name, arguments, options, text


def read(*path):
    try:
        with open(os.path.join(*path), encoding="utf-8") as file:
            return file.read()
    except OSError as fault:
        raise Wrong(f"{fault.filename}: {fault.strerror}") from None


def found(pattern, text, what, flags=0):
    match = re.search(pattern, text, re.S | flags)
    if not match:
        raise Wrong(f"{what} is not where packaging/facts.py looks for it")
    return match


def names(text):
    """The texts of a list of literals, or the variants of ValueName in a list."""
    return re.findall(r'"(\w+)"', text) or re.findall(r"ValueName::(\w+)", text)


def number(text):
    return WIDEST if text == "u32::MAX" else int(text.replace("_", ""))


def manual(top):
    """The manual page: its options as {name: (value, text)}, and the first sentence that begins with each command."""
    options, texts = {}, {}
    page = read(top, "docs", "fmm.1")
    for name, value, text in re.findall(r'^\.TP\n\.BI \\-\\-(\w+) " (\w+)"\n(.*)$', page, re.M):
        options[name] = value, text.replace("\\-", "-")
    prose = found(r"^\.SH DESCRIPTION\n(.*?)^\.SH", page, "the description in docs/fmm.1", re.M)[1]
    for sentence in re.split(r"\.\s|^\..*\n", prose.replace("\\-", "-"), flags=re.M):
        name, _, text = " ".join(sentence.split()).partition(" ")
        texts.setdefault(name, text)
    return options, texts


def commands(top):
    """All commands of fmm, in the order of the manual page."""
    source = os.path.join(top, "crates", "command_line", "src")
    values, syntax = read(source, "value.rt"), read(source, "syntax.rt")
    name_of = dict(re.findall(r'ValueName::(\w+) => "(\w+)"', values))
    model = os.path.join(top, "crates", "cost_model", "src")
    params = "".join(read(model, name) for name in sorted(os.listdir(model)))
    written = r"ValueRange \{\s*least: ([\w:]+),\s*most: ([\w:]+),?\s*\}"
    constants = {name: (number(least), number(most)) for name, least, most
                 in re.findall(r"const (\w+_RANGE): ValueRange = " + written, params + values)}
    ranges = {name_of[variant]: (number(least), number(most)) for variant, least, most
              in re.findall(r"ValueName::(\w+) => " + written, values)}
    for variant, constant in re.findall(r"ValueName::(\w+) => (?:Params::)?(\w+_RANGE)", values):
        if constant not in constants:
            raise Wrong(f"packaging/facts.py does not find {constant} in {model}")
        ranges[name_of[variant]] = constants[constant]
    shared = found(r"OPTIONS: \[ValueName; (\d+)\] = \[(.*?)\];", values, "the list of options in value.rt")
    shared_names = [name_of[variant] for variant in names(shared[2])]
    count = int(found(r"FORMS: \[Form; (\d+)\]", syntax, "the number of commands in syntax.rt")[1])
    if len(shared_names) != int(shared[1]):
        raise Wrong("packaging/facts.py does not find all options in value.rt")

    default = found(r"pub const DEFAULT: Params = Params \{(.*?)\};", params, "the default of the options")[1]
    defaults = {name: number(value) for name, value in re.findall(r"(\w+): ([\w:]+),", default)}
    works = "".join(read(source, "works", name) for name in sorted(os.listdir(os.path.join(source, "works"))))
    defaults.update((name.lower(), number(value)) for name, value in re.findall(r"const DEFAULT_(\w+): u32 = ([\w:]+);", works))
    described, texts = manual(top)

    def option(name):
        if name not in described:
            raise Wrong(f"docs/fmm.1 does not describe --{name}")
        value, text = described[name]
        if name not in shared_names and name not in ranges:
            return Option(name, value, None, text)
        if name not in ranges or name not in defaults:
            raise Wrong(f"packaging/facts.py does not find the range and the default of --{name}")
        least, most = ranges[name]
        said = f"{least:,} to {most:,}"
        if said not in text:
            raise Wrong(f"docs/fmm.1 does not say of --{name}: {said}")
        said = f"default {defaults[name]:,}"
        if said not in text and not (defaults[name] == most and text.endswith("the default")):
            raise Wrong(f"docs/fmm.1 does not say of --{name}: {said}")
        return Option(name, value, ranges[name], text)

    forms = {}
    for path in sorted(os.listdir(os.path.join(source, "works"))):
        found_here = re.findall(r'const \w+: Form = Form \{\s*name: "(\w+)",\s*options: &\[(.*?)\],\s*arguments: &\[(.*?)\],',
                                read(source, "works", path), re.S)
        forms.update((name, (names(options), names(arguments))) for name, options, arguments in found_here)
    if len(forms) != count:
        raise Wrong(f"packaging/facts.py finds {len(forms)} of {count} commands in {source}/works")
    answer = []
    for name in forms:
        if name not in texts:
            raise Wrong(f"docs/fmm.1 has no sentence that begins with the command {name}")
    for name in sorted(forms, key=list(texts).index):
        options, arguments = forms[name]
        answer.append(Command(name, [Argument(each, ranges) for each in arguments],
                              [option(each) for each in shared_names + options], texts[name]))
    return answer


def package_commands(top):
    """The commands of the Python package with their descriptions: the first lines of the docstrings of their modules."""
    folder, answer = os.path.join(top, "python", "src", "fmm", "commands"), []
    for name in sorted(os.listdir(folder)) if os.path.isdir(folder) else []:
        if re.fullmatch(r"[a-z]\w*\.py", name):
            text = found(r'^"""([^"\n]+?)\.?("""|\n)', read(folder, name), f"the description of the command {name[:-3]}")[1]
            answer.append((name[:-3], text))
    return answer


def debian_packages(top, group):
    """The names of a group of packaging/debian-packages."""
    lines = [line.split() for line in read(top, "packaging", "debian-packages").splitlines() if line and line[0] != "#"]
    return [words[1] for words in lines if words[0] == group]
