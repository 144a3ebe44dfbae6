"""The completions for bash and zsh, from the templates of this folder."""
import re

from facts import commands, package_commands, read


def quoted(text):
    return "'" + text.replace("'", "'\\''") + "'"


def lines(texts, indent):
    return ("\n" + " " * indent).join(texts)


def bash_completion(top, names):
    every = commands(top)
    shared = [option for option in every[0].options if all(option.name in [o.name for o in c.options] for c in every)]

    def pair(word, text):
        return "$'" + f"{word}\\t{text}".replace("'", "\\'") + "'"

    def own(command):
        return [pair("--" + o.name, o.text) for o in command.options if o.name not in [s.name for s in shared]]

    files = sorted({"--" + option.name for command in every for option in command.options if option.is_file})
    return filled(top, "fmm.bash", {
        "COMMANDS": lines([pair(c.name, c.text) + " \\" for c in every], 8).rstrip(" \\"),
        "SHARED_OPTIONS": lines([pair("--" + o.name, o.text) + " \\" for o in shared], 8).rstrip(" \\"),
        "OWN_OPTIONS": lines([f"{c.name}) printf '%s\\n' {' '.join(own(c))} ;;" for c in every if own(c)], 8),
        "ARGUMENTS": lines([f"{c.name}) echo {' '.join('file' if a.is_file else 'number' for a in c.arguments)} ;;"
                            for c in every], 8),
        "FILE_OPTIONS": " ".join(files),
        "PACKAGE_COMMANDS": lines([pair(name, text) + " \\" for name, text in package_commands(top)], 8).rstrip(" \\"),
        "PACKAGE_NAMES": " ".join(name for name, _ in package_commands(top)),
        "PROGRAMS": " ".join(names),
    })


def zsh_completion(top, names):
    every = commands(top)
    shared = [option for option in every[0].options if all(option.name in [o.name for o in c.options] for c in every)]

    def plain(text):
        return re.sub(r"([:\[\]\\])", r"\\\1", text)

    def hint(name, range_):
        return f"{name}, {range_[0]:,} to {range_[1]:,}" if range_ else name

    def rule(option):
        action = "_files" if option.is_file else " "
        return quoted(f"--{option.name}=[{plain(option.text)}]:{hint(option.value, option.range)}:{action}")

    def words(command):
        own = [rule(option) for option in command.options if option.name not in [s.name for s in shared]]
        places = [quoted(f"{at}:{hint(a.name, a.range)}:{'_files' if a.is_file else ' '}")
                  for at, a in enumerate(command.arguments, 1)]
        return f"{command.name}) _arguments -S $options {' '.join(own + places)} ;;"

    return filled(top, "fmm.zsh", {
        "COMMANDS": lines([quoted(f"{c.name}:{plain(c.text)}") for c in every], 8),
        "COMMANDS_WORDS": lines([words(c) for c in every], 8),
        "SHARED_OPTIONS": lines([rule(o) for o in shared], 8),
        "PACKAGE_COMMANDS": lines([quoted(f"{name}:{plain(text)}") for name, text in package_commands(top)], 8),
        "PACKAGE_NAMES": "|".join(name for name, _ in package_commands(top)),
        "PROGRAMS": " ".join(names),
    })


def filled(top, template, parts):
    """The text of a template with each @NAME@ replaced."""
    return re.sub(r"@([A-Z_]+)@", lambda name: parts[name[1]], read(top, "packaging", template))
