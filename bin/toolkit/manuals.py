"""Man pages of section 1, made of what `--help` says."""

ESCAPES = {"\\": "\\e", "-": "\\-", "'": "\\(aq", "^": "\\(ha", "~": "\\(ti", "`": "\\(ga"}


def escaped(text):
    """A text as a line of a page."""
    line = "".join(ESCAPES.get(letter, letter) for letter in text)
    return "\\&" + line if line.startswith(".") else line


def summary_of(about):
    """What a program does in one line: the first sentence, with a small letter."""
    sentence = " ".join(about[0]).split(". ")[0].rstrip(".")
    return sentence[0].lower() + sentence[1:]


def paragraph_of(lines):
    """A paragraph; lines that are indented stand as they are."""
    page, is_literal = [], False
    for line in lines:
        if line.startswith("  ") != is_literal:
            is_literal = not is_literal
            page.append(".EX" if is_literal else ".EE")
        page.append(escaped(line))
    return page + [".EE"] * is_literal


def paragraphs_of(texts):
    """Paragraphs, with a break before each but the first."""
    return [[".PP"] * (number > 0) + paragraph_of(lines) for number, lines in enumerate(texts)]


def words_of(option):
    """What is typed for an argument or an option."""
    names = ", ".join(f"\\fB{escaped(name)}\\fR" for name in option.names)
    value = f"\\fI{escaped(option.value)}\\fR" if option.value else ""
    return f"{names} {value}".strip()


def item_of(option):
    choices = f" One of: {', '.join(option.choices)}." if option.choices else ""
    text = option.text if not choices or option.text.endswith((".", "]")) else option.text + "."
    return [".TP", words_of(option), escaped(text + choices)]


def section_of(title, items):
    return [f".SH {title}", *(line for item in items for line in item)] if items else []


def manual(name, version, date, described):
    """The page of a program."""
    usage = described.usage.removeprefix(name).strip()
    page = [f'.TH {name.upper()} 1 "{date}" "morvezin {version}" "User Commands"']
    page += section_of("NAME", [[f"{name} \\- {escaped(summary_of(described.about))}"]])
    page += section_of("SYNOPSIS", [[f"\\fB{name}\\fR {escaped(usage)}"]])
    page += section_of("DESCRIPTION", paragraphs_of(described.about))
    page += section_of("ARGUMENTS", [item_of(argument) for argument in described.arguments])
    page += section_of("OPTIONS", [item_of(option) for option in described.options])
    page += section_of("NOTES", paragraphs_of(described.notes))
    return "\n".join(page) + "\n"
