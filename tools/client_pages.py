"""Man pages and completions of the clients, made of what each prints by --help, for tools/release."""
import functools
import os
import re
import shlex
import subprocess
import sys
from pathlib import Path
from typing import NamedTuple

CLIENTS = Path(__file__).resolve().parent.parent / "clients"
ROW = re.compile(r"^ +(-\S.*?)(?:  +|\n +)(\S.*)$", re.M)
WORK = re.compile(r"^    (\w+) +(.*)$", re.M)


class Option(NamedTuple):
    """An option by its long name, what it takes ("" if nothing), its sentence, and all that it is spelled like."""

    name: str
    takes: str
    sentence: str
    words: str

    @property
    def choices(self):
        return self.takes[1:-1].split(",") if self.takes.startswith("{") else []


class Command(NamedTuple):
    """A client, or one work of a client that has several, by its help; `works` has a sentence for each work."""

    words: tuple
    usage: str
    about: str
    options: list
    end: str
    works: dict

    @property
    def work(self):
        return self.words[-1]


@functools.cache
def command(*words):
    surroundings = {**os.environ, "COLUMNS": "10000", "PYTHONDONTWRITEBYTECODE": "1"}
    ran = subprocess.run([sys.executable, CLIENTS / words[0], *words[1:], "--help"], capture_output=True, text=True, check=True, env=surroundings)
    usage, about, *parts = ran.stdout.strip().split("\n\n")
    named = dict(part.split(":\n", 1) for part in parts if part.startswith(("options:\n", "positional arguments:\n")))
    options = [option_of(*row) for row in ROW.findall(named["options"])]
    end = "" if parts[-1].startswith("options:\n") else parts[-1]
    return Command(words, usage.removeprefix("usage: "), about, options, end, dict(WORK.findall(named.get("positional arguments", ""))))


def option_of(names, sentence):
    long, _, takes = names.rpartition("--")[2].partition(" ")
    return Option(f"--{long}", takes, sentence, names)


def commands(client):
    """A client, and all its works."""
    whole = command(client)
    return whole, [command(client, it) for it in whole.works]


def roff(text):
    return re.sub(r"^([.'])", r"\\&\1", text.replace("\\", "\\e").replace("-", "\\-"), flags=re.M)


def man(client):
    """The man page."""
    whole, works = commands(client)
    name = f"bench61499-{client}"
    lines = [f".TH {name.upper()} 1", ".SH NAME", roff(name) + r" \- " + roff(whole.about.partition(". ")[0].rstrip(".")), ".SH SYNOPSIS"]
    lines += [line for it in works or [whole] for line in (roff(f"bench61499-{it.usage}"), ".br")]
    lines += [".SH DESCRIPTION", roff(whole.about), ".SH OPTIONS", *described(whole)]
    lines += [line for it in works for line in (f".SH {it.work.upper()}", roff(it.about), *described(it))]
    return "\n".join([*lines, ""])


def described(it):
    """The options of a man page, and the end of the help."""
    lines = [line for one in it.options for line in (".TP", f".B {roff(f'{one.name} {one.takes}'.strip())}", roff(one.sentence))]
    return [*lines, *([".PP", roff(it.end)] if it.end else [])]


def names(it):
    return " ".join(one.name for one in it.options)


def bash(client):
    """The completion of bash: options and works, else files."""
    whole, works = commands(client)
    choices = {one.name: " ".join(one.choices) for it in [whole, *works] for one in it.options if one.choices}
    function = f"_bench61499_{client}"
    lines = [f"# Completion of bench61499-{client} for bash.", f"{function}() {{", "  local word=${COMP_WORDS[COMP_CWORD]} words options"]
    lines += ["  case ${COMP_WORDS[COMP_CWORD-1]} in"]
    lines += [f"    {option}) words={shlex.quote(its)} ;;" for option, its in choices.items()]
    lines += [f"    bench61499-{client}) words={shlex.quote(' '.join(whole.works))} options={shlex.quote(names(whole))} ;;"]
    lines += ["    *) case ${COMP_WORDS[1]} in", *(f"      {it.work}) options={shlex.quote(names(it))} ;;" for it in works)]
    lines += [f"      *) options={shlex.quote(names(whole))} ;;", "    esac ;;", "  esac"]
    lines += ['  if [[ $word == -* ]]; then words=$options; fi', '  mapfile -t COMPREPLY < <(compgen -W "$words" -- "$word")', "}"]
    return "\n".join([*lines, f"complete -o default -F {function} bench61499-{client}", ""])


def fish(client):
    """The completion of fish."""
    whole, works = commands(client)
    start = f"complete -c bench61499-{client}"
    lines = [f"# Completion of bench61499-{client} for fish."]
    lines += [f"{start} -n __fish_use_subcommand -f -a {work} -d {shlex.quote(sentence)}" for work, sentence in whole.works.items()]
    for it in [whole, *works]:
        when = f" -n '__fish_seen_subcommand_from {it.work}'" if it is not whole else " -n __fish_use_subcommand" if works else ""
        for one in it.options:
            takes = f" -x -a {shlex.quote(' '.join(one.choices))}" if one.choices else " -r" if one.takes else ""
            lines.append(f"{start}{when}{takes} -l {one.name[2:]} -d {shlex.quote(one.sentence)}")
    return "\n".join([*lines, ""])


def zsh(client):
    """The completion of zsh."""
    whole, works = commands(client)
    function = f"_bench61499_{client}"
    lines = [f"#compdef bench61499-{client}", f"# Completion of bench61499-{client} for zsh.", f"{function}() {{"]
    if works:
        listed = " ".join(shlex.quote(f"{work}[{sentence}]") for work, sentence in whole.works.items())
        lines += ["  if (( CURRENT == 2 )); then", f"    _values work {listed}", "    return", "  fi"]
        lines += ["  local work=$words[2]", "  shift words", "  (( CURRENT-- ))", "  case $work in"]
        lines += [*(f"    {it.work}) _arguments {arguments(it)} ;;" for it in works), "  esac"]
    else:
        lines.append(f"  _arguments {arguments(whole)}")
    return "\n".join([*lines, "}", f'{function} "$@"', ""])


def arguments(it):
    """What `_arguments` of zsh takes."""

    def plain(text):
        return re.sub(r"[\[\]:]", " ", text)

    taken = {one: f"({' '.join(one.choices)})" if one.choices else "_files" for one in it.options}
    specs = [f"{one.name}[{plain(one.sentence)}]" + (f":{plain(one.takes)}:{taken[one]}" if one.takes else "") for one in it.options]
    return " ".join(map(shlex.quote, [*specs, "*:file:_files"]))


def pages():
    """All pages of all clients, by their places below a folder such as /usr/local."""
    makers = {
        "share/man/man1/bench61499-{}.1": man,
        "share/bash-completion/completions/bench61499-{}": bash,
        "share/zsh/site-functions/_bench61499-{}": zsh,
        "share/fish/vendor_completions.d/bench61499-{}.fish": fish,
    }
    clients = sorted(it.name for it in CLIENTS.iterdir() if it.is_file() and os.access(it, os.X_OK))
    return {place.format(client): make(client) for client in clients for place, make in makers.items()}
