"""Completions for bash, zsh and fish, made of what `--help` says."""

import re

# The names of values that are files or folders, and the short form of a text.
FILES = ("FILE", "FOLDER", "OBJECT", "PLAN")

BASH = """\
# Completes the words of {name} in bash.
{function}() {{
    local word=${{COMP_WORDS[COMP_CWORD]}} before=${{COMP_WORDS[COMP_CWORD-1]}}
    # Bash takes the equals sign between an option and its value for a word of its own.
    if [[ $word == = ]]; then
        word=
    elif [[ $before == = ]]; then
        before=${{COMP_WORDS[COMP_CWORD-2]}}
    fi
    case $before in
{cases}    esac
    if [[ $word == -* ]]; then
        mapfile -t COMPREPLY < <(compgen -W '{options}' -- "$word")
    else
        mapfile -t COMPREPLY < <(compgen -f -- "$word")
    fi
}}
complete -o filenames -F {function} {name}
"""


def names_files(option):
    return option.value in FILES


def function_of(name):
    return "_" + re.sub(r"\W", "_", name)


def bash_case(option):
    """What stands after an option that has a value: one of several words, a file, or something that can't be known."""
    if option.choices:
        action = f"mapfile -t COMPREPLY < <(compgen -W '{' '.join(option.choices)}' -- \"$word\")"
    elif names_files(option):
        action = 'mapfile -t COMPREPLY < <(compgen -f -- "$word")'
    else:
        action = "COMPREPLY=()"
    return f"        {'|'.join(option.names)}) {action}; return ;;\n"


def bash(name, described):
    cases = "".join(bash_case(option) for option in described.options if option.value)
    options = " ".join(word for option in described.options for word in option.names)
    return BASH.format(name=name, function=function_of(name), cases=cases, options=options)


def zsh_text(text):
    """A text in a single-quoted word of zsh, inside brackets."""
    return re.sub(r"([\[\]:\\])", r"\\\1", text).replace("'", "'\\''")


def zsh_action(option):
    if option.choices:
        return f"({' '.join(option.choices)})"
    return "_files" if names_files(option) else " "


def zsh_lines(option):
    """A specification for each name of an option. Help and version stand alone, others may be given again."""
    value = f":{zsh_text(option.value)}:{zsh_action(option)}" if option.value else ""
    for name in option.names:
        before = "(- *)" if {"--help", "--version"} & set(option.names) else "*"
        after = "=" if value and name.startswith("--") else ""
        yield f"'{before}{name}{after}[{zsh_text(option.text)}]{value}'"


def zsh(name, described):
    lines = [line for option in described.options for line in zsh_lines(option)]
    lines.append("'*:file:_files'")
    return f"#compdef {name}\n_arguments -s -S \\\n    " + " \\\n    ".join(lines) + "\n"


def fish_text(text):
    """A text as a single-quoted word of fish."""
    return "'" + text.replace("\\", "\\\\").replace("'", "\\'") + "'"


def fish_line(name, option):
    words = ["complete", "-c", name]
    for word in option.names:
        words += ["-l", word[2:]] if word.startswith("--") else ["-s", word[1:]]
    if option.choices:
        words += ["-x", "-a", fish_text(" ".join(option.choices))]
    elif option.value:
        words += ["-r", "-F"] if names_files(option) else ["-x"]
    return " ".join([*words, "-d", fish_text(option.text)])


def fish(name, described):
    return "\n".join([f"# Completes the words of {name} in fish.", *(fish_line(name, option) for option in described.options)]) + "\n"
