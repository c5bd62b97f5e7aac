#!/usr/bin/env python3
"""Writes man pages and completions of a program from what it says of itself by --help:

    release/pages.py PROGRAM FOLDER DATE

It reads the texts that clap makes: about, Usage, and the lists Commands, Arguments and Options; what follows them is kept as it stands.
FOLDER gets man/man1, bash-completion/completions, zsh/site-functions and fish/vendor_completions.d."""
import dataclasses
import pathlib
import re
import subprocess
import sys

LISTS = ("Commands", "Arguments", "Options")
ENTRY = re.compile(r" {2,6}(\S.*?)(?: {2,}(\S.*))?$")


@dataclasses.dataclass
class Entry:
    """A command, argument or option: how it is written, as `-h, --help` or `--workers <K>`, and what it does."""

    shown: str
    help: str

    @property
    def flags(self):
        return re.findall(r"(?<!\S)--?[\w-]+", self.shown)

    @property
    def value(self):
        """The name of an option's value, if it takes one."""
        found = re.search(r"<(.+?)>", self.shown)
        return found[1] if found else None


@dataclasses.dataclass
class Page:
    """What a program, or one of its commands, says of itself."""

    words: list
    about: str
    usage: str
    lists: dict
    after: str

    @property
    def name(self):
        return "-".join(self.words)


def ask(program, *words):
    asked = subprocess.run([program, *words], capture_output=True, text=True)
    if asked.returncode or not asked.stdout:
        sys.exit(f"pages.py: '{' '.join([program, *words])}' ended with status {asked.returncode} and wrote {len(asked.stdout)} characters of help")
    return asked.stdout


def read(words, text):
    about, found, rest = text.partition("\nUsage: ")
    if not found:
        sys.exit(f"pages.py: the help of '{' '.join(words)}' has no line 'Usage: '")
    usage, _, rest = rest.partition("\n")
    lists, after, lines = {}, [], rest.split("\n")
    current = None
    for number, line in enumerate(lines):
        if line.endswith(":") and line[:-1] in LISTS:
            current = lists.setdefault(line[:-1], [])
        elif not line.strip():
            continue
        elif current is None or not line.startswith("  "):
            after = lines[number:]
            break
        elif entry := ENTRY.match(line):
            current.append(Entry(entry[1], entry[2] or ""))
        else:
            current[-1].help = f"{current[-1].help} {line.strip()}".strip()
    return Page(words, about.strip(), usage, lists, "\n".join(after).strip("\n"))


def pages_of(program):
    """The page of the program, and then one for each of its commands."""
    top = read(["ibcplan"], ask(program, "--help"))
    names = [it.shown for it in top.lists.get("Commands", []) if it.shown != "help"]
    return [top, *(read(["ibcplan", name], ask(program, name, "--help")) for name in names)]


def roff(text):
    text = text.replace("\\", "\\e").replace("-", "\\-")
    return re.sub(r"^([.'])", r"\\&\1", text, flags=re.M)


def man_of(page, others, version, date):
    out = [f'.TH {page.name.upper()} 1 "{date}" "{version}"', ".SH NAME", f"{page.name} \\- {roff(page.about)}"]
    out += [".SH SYNOPSIS", f".B {roff(page.usage)}"]
    for title, entries in page.lists.items():
        out.append(f".SH {title.upper()}")
        for it in entries:
            out += [".TP", f".B {roff(it.shown)}", roff(it.help)]
    if page.after:
        # where the program is installed, it is called by its name, and the examples are in the package's own folder
        after = re.sub(r"(^ +|\| )\./ibcplan", r"\1ibcplan", page.after, flags=re.M).replace("the folder of the repository", "share/doc/ibcplan of the package")
        # a line at the margin that ends with a colon opens a section: what follows it, or another, stands as it is written
        title = "NOTES"
        for part in re.split(r"\n\n+", after):
            first, _, more = part.partition("\n")
            head = re.match(r"([A-Z][a-z]+(?: [a-z]+)?)(?: \((.*)\))?:$", first)
            if head and more:
                out += [f".SH {head[1].upper()}", *([roff(head[2][0].upper() + head[2][1:]) + ":"] if head[2] else [])]
                title, part = "NOTES", more
            elif title:
                out.append(f".SH {title}")
                title = ""
            else:
                out.append(".PP")
            out += [".nf", roff(part), ".fi"]
    out += [".SH SEE ALSO", *(f".BR {it.name} (1){',' if it is not others[-1] else ''}" for it in others)]
    return "\n".join(out) + "\n"


def options_of(page):
    return page.lists.get("Options", [])


def bash_of(top, commands):
    words = [*(it.shown for it in top.lists["Commands"]), *(flag for it in options_of(top) for flag in it.flags)]
    valued = sorted({flag for page in commands for it in options_of(page) if it.value for flag in it.flags})
    cases = [f"  {page.words[1]}) words='{' '.join(flag for it in options_of(page) for flag in it.flags)}' ;;" for page in commands]
    return "\n".join([
        "# completions of ibcplan for bash",
        "_ibcplan() {",
        "  local word=${COMP_WORDS[COMP_CWORD]} words=",
        "  COMPREPLY=()",
        *([f"  case ${{COMP_WORDS[COMP_CWORD - 1]}} in {' | '.join(valued)}) compopt +o default; return ;; esac"] if valued else []),
        "  case ${COMP_WORDS[1]} in",
        *cases,
        "  esac",
        f"  [ \"$COMP_CWORD\" -gt 1 ] || words='{' '.join(words)}'",
        "  if [ \"$COMP_CWORD\" -eq 1 ] || [[ $word = -* ]]; then",
        "    mapfile -t COMPREPLY < <(compgen -W \"$words\" -- \"$word\")",
        "  fi",
        "}",
        "complete -o default -F _ibcplan ibcplan",
        "",
    ])


def quoted(text):
    return "'" + text.replace("'", "'\\''") + "'"


def zsh_of(top, commands):
    def option(it, flag):
        text = re.sub(r"([\[\]:\\])", r"\\\1", it.help)
        return quoted(f"{flag}[{text}]" + (f":{it.value}:" if it.value else ""))

    def options(page):
        return " ".join(option(it, flag) for it in options_of(page) for flag in it.flags)

    named = " ".join(quoted(f"{it.shown}:{it.help}") for it in top.lists["Commands"])
    cases = [f"{page.words[1]}) _arguments {options(page)} '*:file:_files' ;;" for page in commands]
    return "\n".join([
        "#compdef ibcplan",
        "# completions of ibcplan for zsh",
        "local -a commands",
        f"commands=({named})",
        "if (( CURRENT == 2 )); then",
        "  _describe command commands",
        f"  _arguments {options(top)}",
        "  return",
        "fi",
        "shift words",
        "(( CURRENT-- ))",
        "case $words[1] in",
        *cases,
        "esac",
        "",
    ])


def fish_of(top, commands):
    def option(it, when):
        words = ["complete -c ibcplan", "-n", quoted(when)]
        words += [f"-l {flag[2:]}" if flag.startswith("--") else f"-s {flag[1:]}" for flag in it.flags]
        return " ".join([*words, *(["-x"] if it.value else []), "-d", quoted(it.help)])

    out = ["# completions of ibcplan for fish"]
    out += [f"complete -c ibcplan -n __fish_use_subcommand -f -a {it.shown} -d {quoted(it.help)}" for it in top.lists["Commands"]]
    out += [option(it, "__fish_use_subcommand") for it in options_of(top)]
    out += [option(it, f"__fish_seen_subcommand_from {page.words[1]}") for page in commands for it in options_of(page)]
    return "\n".join(out) + "\n"


def main():
    program, folder, date = sys.argv[1:]
    folder = pathlib.Path(folder)
    top, *commands = pages_of(program)
    version = ask(program, "--version").strip()
    files = {f"man/man1/{it.name}.1": man_of(it, [other for other in (top, *commands) if other is not it], version, date) for it in (top, *commands)}
    files["bash-completion/completions/ibcplan"] = bash_of(top, commands)
    files["zsh/site-functions/_ibcplan"] = zsh_of(top, commands)
    files["fish/vendor_completions.d/ibcplan.fish"] = fish_of(top, commands)
    for name, text in files.items():
        (folder / name).parent.mkdir(parents=True, exist_ok=True)
        (folder / name).write_text(text)


main()
