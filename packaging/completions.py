"""Completions of tlslog for bash, zsh and fish, from its --help and the names of its fields."""

import re
import shlex
from dataclasses import dataclass

# The line of an option, and the notes that clap puts after its help.
OPTION = re.compile(r"^ +(?:(-\w), )?(--[\w-]+)(?: <([^>]+)>)?(?: {2,}(.*))?$")
CHOICES = re.compile(r"\[possible values: ([^]]*)\]")
NOTES = re.compile(r" *\[(?:possible values|default): [^]]*\]")


@dataclass(frozen=True)
class Option:
    short: str
    long: str
    value: str
    help: str
    choices: tuple

    @property
    def is_list(self):
        """Whether its value is a list of fields."""
        return "," in self.value

    @property
    def is_file(self):
        return self.value == "FILE"


def options_of(text):
    """The options in the text of --help."""
    found = []
    for line in text.partition("\nOptions:\n")[2].splitlines():
        if match := OPTION.match(line):
            short, long, value, said = (part or "" for part in match.groups())
            choices = CHOICES.search(said)
            found.append(
                Option(
                    short,
                    long,
                    value,
                    NOTES.sub("", said),
                    tuple(choices[1].split(", ")) if choices else (),
                )
            )
    return found


BASH = r"""# Completion of tlslog for bash.
_tlslog() {
    local word="${COMP_WORDS[COMP_CWORD]}" before="${COMP_WORDS[COMP_CWORD - 1]}" fields front name
    # An option and its value with = between them are three words.
    if [ "$word" = = ]; then
        word=
    elif [ "$before" = = ]; then
        before="${COMP_WORDS[COMP_CWORD - 2]}"
    fi
    COMPREPLY=()
    case "$before" in
@CASES@
    esac
    case "$word" in
        -*) mapfile -t COMPREPLY < <(compgen -W '@OPTIONS@' -- "$word") ;;
        *) _tlslog_files ;;
    esac
}
_tlslog_files() {
    compopt -o filenames 2> /dev/null
    mapfile -t COMPREPLY < <(compgen -f -- "$word")
}
# The fields that can follow the last comma.
_tlslog_fields() {
    fields='@FIELDS@'
    [[ " ${COMP_WORDS[*]} " == *' --messages '* ]] && fields='@MESSAGE_FIELDS@'
    [[ " ${COMP_WORDS[*]} " == *' --certificates '* ]] && fields='@CERTIFICATE_FIELDS@'
    front="${word%"${word##*,}"}"
    compopt -o nospace 2> /dev/null
    for name in $fields; do
        [[ "$front$name" == "$word"* && ",$front" != *",$name,"* ]] && COMPREPLY+=("$front$name")
    done
    return 0
}
complete -F _tlslog tlslog
"""

ZSH = """#compdef tlslog
# Completion of tlslog for zsh.
_tlslog_fields() {
    if (( ${words[(I)--messages]} )); then
        _values -s , field @MESSAGE_FIELDS@
    elif (( ${words[(I)--certificates]} )); then
        _values -s , field @CERTIFICATE_FIELDS@
    else
        _values -s , field @FIELDS@
    fi
}
_arguments \\
@SPECS@
    '*:capture:_files'
"""

FISH = """# Completion of tlslog for fish.
function __tlslog_fields
    if contains -- --messages (commandline -opc)
        printf '%s\\n' @MESSAGE_FIELDS@
    else if contains -- --certificates (commandline -opc)
        printf '%s\\n' @CERTIFICATE_FIELDS@
    else
        printf '%s\\n' @FIELDS@
    end
end
@LINES@
"""


def _bash_case(option):
    if option.choices:
        return f"""mapfile -t COMPREPLY < <(compgen -W '{" ".join(option.choices)}' -- "$word")"""
    if option.is_list:
        return "_tlslog_fields"
    return "_tlslog_files" if option.is_file else ":"


def _zsh_spec(option):
    said = (
        option.help.replace("[", "\\[")
        .replace("]", "\\]")
        .replace(":", "\\:")
        .replace("'", "'\\''")
    )
    if not option.value:
        names = (
            f"'({option.short} {option.long})'{{{option.short},{option.long}}}"
            if option.short
            else option.long
        )
        return f"    {names}'[{said}]' \\"
    if option.choices:
        action = f"({' '.join(option.choices)})"
    else:
        action = "_tlslog_fields" if option.is_list else "_files" if option.is_file else " "
    name = "fields" if option.is_list else option.value.lower()
    return f"    '{option.long}=[{said}]:{name}:{action}' \\"


def _fish_line(option):
    words = [
        "complete -c tlslog",
        f"-s {option.short[1:]}" if option.short else "",
        f"-l {option.long[2:]}",
    ]
    if option.choices:
        words.append(f"-x -a {shlex.quote(' '.join(option.choices))}")
    elif option.is_list:
        words.append("-x -a '(__fish_complete_list , __tlslog_fields)'")
    elif option.is_file:
        words.append("-r -F")
    elif option.value:
        words.append("-x")
    said = option.help.replace("\\", "\\\\").replace("'", "\\'")
    return " ".join([*filter(None, words), f"-d '{said}'"])


def _filled(text, **parts):
    for name, part in parts.items():
        text = text.replace(f"@{name}@", part)
    return text


def completions_of(text, fields, message_fields, certificate_fields):
    """By shell: its completion file, for the text of --help and the fields of the three kinds of
    lines."""
    options = options_of(text)
    names = {
        "FIELDS": " ".join(fields),
        "MESSAGE_FIELDS": " ".join(message_fields),
        "CERTIFICATE_FIELDS": " ".join(certificate_fields),
    }
    cases = "\n".join(
        f"        {option.long})\n            {_bash_case(option)}\n            return\n            ;;"
        for option in options
        if option.value
    )
    words = " ".join(name for option in options for name in (option.short, option.long) if name)
    return {
        "bash": _filled(BASH, CASES=cases, OPTIONS=words, **names),
        "zsh": _filled(ZSH, SPECS="\n".join(map(_zsh_spec, options)), **names),
        "fish": _filled(FISH, LINES="\n".join(map(_fish_line, options)), **names),
    }
