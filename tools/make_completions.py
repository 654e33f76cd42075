#!/usr/bin/env python3
"""Makes the completions for bash and zsh out of what the program says of itself: its commands, and the options and arguments of
each. They stand in packaging/completions; with --check nothing is written, and the status is 1 if another file would be.

usage: tools/make_completions.py [--check] PROGRAM
"""
import os
import re
import sys

from common import TOP, printed, text_of

FOLDER = os.path.join(TOP, "packaging/completions")
MADE = "# Made by tools/make_completions.py from what t1subset says of itself."


class Word:
    """A command of the program: what it does, its options with what each does, which of them take a value and what it is, and its
    arguments, each with whether it may stand more than once."""

    def __init__(self, program, name, about):
        self.name, self.about = name, about
        text = printed([program, name, "--help"])
        usage = re.search(r"^Usage: t1subset \S+(.*)$", text, re.M)[1]
        self.arguments = {name: bool(dots) for name, dots in re.findall(r"[<\[](\w+)[>\]](\.\.\.)?", usage) if name != "OPTIONS"}
        options = re.search(r"^Options:\n(.*?)\n\n", text, re.M | re.S)[1]
        found = re.findall(r"^ +(?:-\w, |    )(--[\w-]+)(?: <(\w+)>)? +(\S.*)$", options, re.M)
        self.options = {option: about for option, _, about in found}
        self.takes = {option: value for option, value, _ in found if value}

    def names_from(self):
        """From which argument on names of glyphs stand, or 0 if none does. The font is the first argument."""
        return [*self.arguments].index("NAME") + 1 if "NAME" in self.arguments else 0


def words_of(program):
    """The commands of the program, and its own options."""
    text = printed([program, "--help"])
    listed = re.search(r"^Commands:\n(.*?)\n\n", text, re.M | re.S)[1]
    pairs = re.findall(r"^  (\w+) +(\S.*)$", listed, re.M)
    own = re.findall(r"^ +(?:-\w, )?(--[\w-]+) ", re.search(r"^Options:\n(.*?)\n\n", text, re.M | re.S)[1], re.M)
    return [Word(program, name, about) for name, about in pairs if name != "help"], own


def bash(words, own):
    """The completion for bash, which leaves files to bash."""
    names = " ".join(word.name for word in words)
    cases = []
    for word in words:
        takes = "|".join(word.takes) or "-"
        cases.append(f"    {word.name}) options='{' '.join(word.options)}' takes='{takes}' names={word.names_from()} ;;")
    lines = [
        MADE,
        "_t1subset() {",
        "    local cur=${COMP_WORDS[COMP_CWORD]} options takes names name font first=1 at place=0",
        "    COMPREPLY=()",
        "    [ \"${COMP_WORDS[1]}\" = --explain ] && [ \"$COMP_CWORD\" -gt 1 ] && first=2",
        "    at=$first",
        "    case ${COMP_WORDS[first]} in",
        *cases,
        "    *) options= takes=- names=0 ;;",
        "    esac",
        "    # The arguments before the cursor: neither options nor what they take.",
        "    while [ $((at += 1)) -lt \"$COMP_CWORD\" ]; do",
        "        case ${COMP_WORDS[at]} in",
        "        -*) [[ ${COMP_WORDS[at]} =~ ^($takes)$ ]] && ((at += 1)) ;;",
        "        *) [ $((place += 1)) -eq 1 ] && font=${COMP_WORDS[at]} ;;",
        "        esac",
        "    done",
        f"    if [ \"$COMP_CWORD\" -eq \"$first\" ]; then options='{names} help {' '.join(own)}'",
        f"    elif [ \"${{COMP_WORDS[first]}}\" = help ]; then options='{names}'",
        "    elif [[ ${COMP_WORDS[COMP_CWORD - 1]} =~ ^($takes)$ ]]; then return",
        "    elif [[ $cur != -* ]]; then",
        "        [ \"$names\" -gt 0 ] && [ $((place + 1)) -ge \"$names\" ] || return",
        "        # Names of glyphs, but for those that are printed with a backslash. A font may hold any: none is expanded.",
        "        while IFS= read -r name; do",
        "            [[ $name == \"$cur\"* ]] && printf -v name %q \"$name\" && COMPREPLY+=(\"$name\")",
        "        done < <(t1subset list \"${font/#\\~\\//$HOME/}\" 2> /dev/null | sed -n 's/^glyph \\([^\\ ]*\\) [0-9]*$/\\1/p')",
        "        return",
        "    fi",
        "    COMPREPLY=($(compgen -W \"$options\" -- \"$cur\"))",
        "}",
        "complete -o default -F _t1subset t1subset",
    ]
    return "\n".join(lines) + "\n"


def quoted(text):
    """A text between quotes."""
    return "'" + text.replace("'", "'\\''") + "'"


def plain(text):
    """A description in which no byte has a meaning for zsh."""
    return re.sub(r"([:\[\]\\])", r"\\\1", text)


def zsh_arguments(word):
    """What zsh's _arguments takes for a command."""
    for option, about in word.options.items():
        value = word.takes.get(option, "")
        yield quoted(f"{option}[{plain(about)}]" + (f":{value}:{'_files' if value == 'FILE' else ' '}" if value else ""))
    for name, many in word.arguments.items():
        yield quoted(f"{'*' if many else ''}:{name}:{'_t1subset_names' if name == 'NAME' else '_files'}")


def zsh(words, own):
    """The completion for zsh."""
    lines = [
        "#compdef t1subset",
        MADE,
        "_t1subset_names() {",
        "    local -a names files",
        "    files=(${${line[1]}/#\\~\\//$HOME/})",
        "    names=(${(f)\"$(t1subset list $files[1] 2> /dev/null | sed -n 's/^glyph \\([^\\\\ ]*\\) [0-9]*$/\\1/p')\"})",
        "    compadd -a names",
        "}",
        "_t1subset() {",
        "    local -a commands_of_it line",
        "    if ((CURRENT > 2)) && [[ $words[2] == --explain ]]; then",
        "        shift words",
        "        ((CURRENT -= 1))",
        "    fi",
        "    if ((CURRENT == 2)); then",
        "        commands_of_it=(",
        *[f"            {quoted(word.name + ':' + plain(word.about))}" for word in words],
        "        )",
        f"        _describe command commands_of_it && compadd -- help {' '.join(own)}",
        "        return",
        "    fi",
        "    local word=$words[2]",
        "    shift words",
        "    ((CURRENT -= 1))",
        "    case $word in",
    ]
    for word in words:
        lines.append(f"    {word.name})")
        arguments = list(zsh_arguments(word))
        lines += [f"        _arguments -s {arguments[0]} \\"] + [f"            {argument} \\" for argument in arguments[1:-1]]
        lines.append(f"            {arguments[-1]} ;;")
    lines += ["    esac", "}", '_t1subset "$@"']
    return "\n".join(lines) + "\n"


def main():
    check = "--check" in sys.argv[1:]
    (program,) = [word for word in sys.argv[1:] if word != "--check"]
    words, own = words_of(os.path.abspath(program))
    files = {"t1subset.bash": bash(words, own), "_t1subset": zsh(words, own)}
    wrong = []
    for name, text in files.items():
        if check:
            wrong += [name] if text_of(FOLDER, name) != text else []
        else:
            with open(os.path.join(FOLDER, name), "w", encoding="utf-8") as f:
                f.write(text)
    if wrong:
        sys.exit(f"packaging/completions: {', '.join(wrong)} isn't what tools/make_completions.py makes")


if __name__ == "__main__":
    main()
