#!/usr/bin/env python3
"""Writes the completions of the three programs for bash and zsh, from their grammars as the sources have them as data.

    bench/completions.py            writes completions/NAME.bash and completions/_NAME
    bench/completions.py --check    says which of them are not what would be written; status 1 if any

The grammars of `nandlab` and `nanddisk` are the `const` items of src/grammar.rt; the words of `nandctl` are those of its table in docs/NANDCTL.md.
"""

import re
import sys
from pathlib import Path

TOP = Path(__file__).resolve().parent.parent
GRAMMARS = {"nandlab": "lab_commands", "nanddisk": "disk_commands"}
# words that name a file; GEOM, numbers and sizes are typed
FILES = {"DUMP", "OUT", "CERT", "DISK", "IMAGE", "IN", "FILE", "READING"}
# the two words that `--sync` takes
CHOICES = {"WHEN": ("erases", "always")}


def rules_of(crate):
    """The commands of a grammar: of each its name, what it does, and its words as (id, kind, value, help)."""
    text = (TOP / "crates" / crate / "src" / "grammar.rt").read_text()
    words = {}
    for name, body in re.findall(r"const (\w+): WordRule<'static> = WordRule \{(.*?)\n\};", text, re.S):
        found = re.search(r'id: "([^"]+)",\s*kind: WordKind::(\w+)(?:\("([^"]+)"\))?,\s*help: "([^"]*)"', body)
        words[name] = found.groups()
    commands = {}
    for name, body in re.findall(r"const (\w+): CommandRule<'static> = CommandRule \{(.*?)\n\};", text, re.S):
        called, about, listed = re.search(r'name: "([^"]+)",\s*about: "([^"]*)",\s*words: &\[([^\]]*)\]', body).groups()
        commands[called] = (about, [words[it.strip()] for it in listed.split(",") if it.strip()])
    return commands


def rules_of_table():
    """The commands of `nandctl`, from the table of its page."""
    commands = {}
    for row, about in re.findall(r"^\| `nandctl ([^`]+)` \| (.*?) \|$", (TOP / "docs/NANDCTL.md").read_text(), re.M):
        called, *places = row.split()
        commands[called] = (re.sub(r"`", "", about), [(place, "Place", "", place) for place in places])
    return commands


def bash_of(program, commands, has_help):
    more = " --help --version" if has_help else ""
    lines = [
        f"# bash completion of {program}, written by bench/completions.py",
        f"_{program}()",
        "{",
        '    local word="${COMP_WORDS[COMP_CWORD]}" before="${COMP_WORDS[COMP_CWORD-1]}"',
        "    COMPREPLY=()",
        "    if [ \"$COMP_CWORD\" -eq 1 ]; then",
        f'        mapfile -t COMPREPLY < <(compgen -W "{" ".join(commands)}{more}" -- "$word")',
        "        return",
        "    fi",
    ]
    values = sorted({(kind_id, value) for _, words in commands.values() for kind_id, kind, value, _ in words if kind == "Valued"})
    if values:
        lines.append('    case "$before" in')
        for kind_id, value in values:
            if value in CHOICES:
                lines.append(f'        --{kind_id}) mapfile -t COMPREPLY < <(compgen -W "{" ".join(CHOICES[value])}" -- "$word"); return ;;')
            elif value in FILES:
                lines.append(f"        --{kind_id}) compopt -o filenames; mapfile -t COMPREPLY < <(compgen -f -- \"$word\"); return ;;")
            else:
                lines.append(f"        --{kind_id}) return ;;")
        lines.append("    esac")
    if has_help:
        lines.append('    if [[ "$word" == -* ]]; then')
        lines.append('        case "${COMP_WORDS[1]}" in')
        for called, (_, words) in commands.items():
            options = " ".join(f"--{it[0]}" for it in words if it[1] in ("Flag", "Valued"))
            lines.append(f'            {called}) mapfile -t COMPREPLY < <(compgen -W "{options} --help" -- "$word") ;;')
        lines += ["        esac", "        return", "    fi"]
    lines += ['    compopt -o filenames', '    mapfile -t COMPREPLY < <(compgen -f -- "$word")', "}", f"complete -F _{program} {program}", ""]
    return "\n".join(lines)


def told(text):
    """A help text as a description inside quotes of zsh."""
    return re.sub(r"([:\[\]])", r"\\\1", text.replace("'", "’"))


def zsh_word(place, word):
    kind_id, kind, value, about = word
    if kind in ("Place", "Places"):
        action = "_files" if kind_id in FILES else " "
        star = "*" if kind == "Places" else str(place)
        return f"'{star}:{told(kind_id)}:{action}'"
    if kind == "Flag":
        return f"'--{kind_id}[{told(about)}]'"
    action = "_files" if value in FILES else f"({' '.join(CHOICES[value])})" if value in CHOICES else " "
    return f"'--{kind_id}[{told(about)}]:{told(value)}:{action}'"


def zsh_of(program, commands, has_help):
    lines = [f"#compdef {program}", f"# zsh completion of {program}, written by bench/completions.py", "", "local -a commands", "commands=("]
    lines += [f"    '{called}:{told(about)}'" for called, (about, _) in commands.items()]
    lines.append(")")
    if has_help:
        lines += ["if (( CURRENT == 2 )) && [[ $PREFIX == -* ]]; then", "    compadd -- --help --version", "    return", "fi"]
    lines += ["if (( CURRENT == 2 )); then", f"    _describe -t commands '{program} command' commands", "    return", "fi",
              "local command=$words[2]", "shift words", "(( CURRENT-- ))", "case $command in"]
    for called, (_, words) in commands.items():
        place, rules = 0, []
        for word in words:
            place += word[1] == "Place"
            rules.append(zsh_word(place, word))
        if has_help:
            rules.append("'--help[Prints help]'")
        lines.append(f"    {called})\n        _arguments \\\n            " + " \\\n            ".join(rules) + "\n        ;;")
    lines += ["esac", ""]
    return "\n".join(lines)


def all_texts():
    programs = {"nandctl": (rules_of_table(), False)}
    programs |= {name: (rules_of(crate), True) for name, crate in GRAMMARS.items()}
    for program, (commands, has_help) in programs.items():
        if not commands:
            sys.exit(f"no command of {program} was found")
        yield TOP / "completions" / f"{program}.bash", bash_of(program, commands, has_help)
        yield TOP / "completions" / f"_{program}", zsh_of(program, commands, has_help)


def main():
    old = []
    for path, text in all_texts():
        if sys.argv[1:] == ["--check"]:
            if not path.exists() or path.read_text() != text:
                old.append(path.name)
        else:
            path.parent.mkdir(exist_ok=True)
            path.write_text(text)
    for name in old:
        print(f"completions/{name} is not what bench/completions.py writes")
    return 1 if old else 0


if __name__ == "__main__":
    sys.exit(main())
