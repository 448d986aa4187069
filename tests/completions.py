#!/usr/bin/env python3
"""Compares the shell completions with the command line of the program: tests/completions.py

The commands, options and words are taken from where the program makes them, commands.rt in
crates/jcommand/src, and the values of --endian and --page from its help, help.rt. Each file in
completions/ must offer each of them, and nothing else: jffs2_image.bash is run by bash,
_jffs2_image (zsh) and jffs2_image.fish are read. The last line is 'N passed, M failed'.
"""
import collections
import os
import re
import subprocess
import sys

ROOT = os.path.dirname(os.path.dirname(os.path.abspath(__file__)))
# what clap adds to each command, and to a program with a version and commands
HELP = {"-h", "--help"}
VERSION = {"-V", "--version"}
HELP_COMMAND = "help"
Command = collections.namedtuple("Command", "options words")


def text_of(*path):
    with open(os.path.join(ROOT, *path), encoding="utf-8") as file:
        return file.read()


def commands_of_the_program():
    """Returns each command by its name, with its options, and its words in order. The program
    itself has the name ''."""
    text = text_of("crates", "jcommand", "src", "commands.rt")
    bodies = dict(re.findall(r"^(?:pub\(crate\) )?fn (\w+)(.*?)^}", text, re.M | re.S))
    found = {}
    for body in bodies.values():
        named = re.search(r'\bmake_(?:plain|reader|printer|writer|noting|named)\(\s*alloc,\s*"(\w+)"', body)
        if named:
            name = "" if ".version(" in body else named[1]
            found[name] = Command(options_in(body, bodies) | HELP, words_in(body, bodies))
    found[""] = Command(found[""].options | VERSION, [])
    found[HELP_COMMAND] = Command(set(), [])
    return found


def options_in(body, bodies):
    """The options that a function makes, and those of the functions that it begins with."""
    made = (r'\bmake_(?:option|required_option|optional|optional_two|lettered_option|flag|lettered_flag)\('
            r'\s*alloc,\s*"([\w-]+)"(?:,\s*\'(\w)\')?')
    options = set()
    for name, letter in re.findall(made, body):
        options |= {f"--{name}", f"-{letter}"} if letter else {f"--{name}"}
    options |= {f"-{letter}" for letter in re.findall(r"\.short\('(\w)'\)", body)}
    makers = ("make_plain|make_block|make_reader|make_printer|make_writer|make_noting|add_region|add_json|add_auto|add_atomic"
              "|add_compressing|add_replacing|add_placing|add_updating|add_settings|add_output")
    for below in re.findall(rf"\b({makers})\(", body):
        options |= options_in(bodies[below], bodies)
    return options


def words_in(body, bodies):
    """The words that a function makes, and the last one, which is OUT for those that write a file."""
    words = re.findall(r'\bmake_(?:optional_)?word\(\s*alloc,\s*"(\w+)"', body)
    return words + (words_in(bodies["add_output"], {}) if bodies and "add_output(" in body else [])


def values_of_the_program():
    """Returns the values of those options of which the help names each value, behind its colon."""
    text = text_of("crates", "jcommand", "src", "help.rt")
    values = {}
    for option in ("endian", "page"):
        told = re.search(rf'const {option.upper()}: &str =\s*"[^"]*: ([^"]*)"', text)[1]
        values[f"--{option}"] = set(re.split(r", | or ", told.removesuffix(" bytes")))
    return values


def offered_by_bash(*words):
    """What the completion offers where the last of these words is to be completed."""
    script = """
        source "$0"
        COMP_WORDS=(jffs2_image "$@")
        COMP_CWORD=$#
        _jffs2_image
        printf '%s\\n' "${COMPREPLY[@]}"
    """
    line = ["bash", "-c", script, os.path.join(ROOT, "completions", "jffs2_image.bash"), *words]
    done = subprocess.run(line, capture_output=True, text=True, check=False)
    return set(done.stdout.split()) if not done.stderr else {done.stderr}


def look_into_bash(program, values):
    for name, command in program.items():
        front = [name] if name else []
        yield f"options of {name or 'the program'}", offered_by_bash(*front, "-"), command.options
        places = range(len(command.words) + 1)
        offered = [bool(offered_by_bash(*front, *"x" * place, "/")) for place in places]
        files = [word != "PATH" for word in command.words] + [False]
        yield f"files among the words of {name or 'the program'}", offered, files
    yield "commands", offered_by_bash(""), set(program) - {""}
    yield "commands of help", offered_by_bash(HELP_COMMAND, ""), set(program) - {""}
    for option, wanted in values.items():
        yield f"values of {option}", offered_by_bash("build", option, ""), wanted
        yield f"values of {option}=", offered_by_bash("build", option, "=", ""), wanted


def flags_of_zsh(text, lists):
    """The options in the words of `_arguments`, those of a list that they name among them."""
    flags = set()
    for spec in re.findall(r"'(--[a-z]+)", text):
        flags.add(spec)
    for group in re.findall(r"\{(-[^}]*)\}", text):
        flags.update(flag.removesuffix("=") for flag in group.split(","))
    for name in re.findall(r"\$(\w+)", text):
        flags |= flags_of_zsh(lists[name], lists) if name in lists else set()
    return flags


def look_into_zsh(program, values):
    text = text_of("completions", "_jffs2_image")
    lists = dict(re.findall(r"^    local -a (\w+)=\(\n(.*?)^    \)", text, re.M | re.S))
    main = re.search(r"_arguments -C (.*?)&& return", text, re.S)[1]
    branches = dict(re.findall(r"^        (\w+)\)\n(.*?);;", text, re.M | re.S))
    told = set(re.findall(r"^        '(\w+):", lists["commands"], re.M))
    yield "commands", told, set(program) - {""}
    yield "branches", set(branches), set(program) - {""}
    yield "options of the program", flags_of_zsh(main, lists), program[""].options
    for name, command in program.items():
        branch = branches.get(name)
        if branch:
            yield f"options of {name}", flags_of_zsh(branch, lists), command.options
            words = re.findall(r"'\d:(\w+):", branch)
            yield f"words of {name}", words, ["command"] if name == HELP_COMMAND else command.words
    for option, wanted in values.items():
        offered = re.search(rf"'{option}=[^(]*\(([^)]*)\)", text)[1].split()
        yield f"values of {option}", set(offered), wanted


def rows_of_fish():
    """Each line `complete`: its condition as words, and its flags with their values."""
    text = text_of("completions", "jffs2_image.fish").replace("\\\n", " ")
    for row in re.findall(r"^complete -c jffs2_image (.*)$", text, re.M):
        words = [quoted or plain for quoted, plain in re.findall(r"'([^']*)'|(\S+)", row)]
        values = dict(zip(words, words[1:]))
        condition = values.pop("-n", "").split()
        yield condition, {flag: values[flag] for flag in ("-a", "-l", "-s") if flag in values}


def look_into_fish(program, values):
    commands = set()
    options = collections.defaultdict(set)
    offered = {}
    for condition, flags in rows_of_fish():
        if condition == ["__fish_use_subcommand"]:
            names = [""]
            commands.update(flags.get("-a", "").split())
        elif condition[0] == "not":
            names = [name for name in program if name not in condition]
        else:
            names = condition[1:]
        given = {f"--{flags['-l']}"} if "-l" in flags else set()
        given |= {f"-{flags['-s']}"} if "-s" in flags else set()
        for name in names:
            options[name] |= given
        for option in given & set(values):
            offered[option] = set(flags["-a"].split())
    yield "commands", commands, set(program) - {""}
    for name, command in program.items():
        yield f"options of {name or 'the program'}", options[name], command.options
    yield "names of commands", set(options) - set(program), set()
    for option, wanted in values.items():
        yield f"values of {option}", offered.get(option, set()), wanted


def main():
    program, values = commands_of_the_program(), values_of_the_program()
    counts = collections.Counter()
    looks = (("bash", look_into_bash), ("zsh", look_into_zsh), ("fish", look_into_fish))
    for shell, look in looks:
        for about, found, wanted in look(program, values):
            counts[found == wanted] += 1
            if found != wanted:
                print(f"FAILED: {shell}, {about}: {found!r}, and the program has {wanted!r}")
    print(f"{counts[True]} passed, {counts[False]} failed")
    return 1 if counts[False] or not counts[True] else 0


sys.exit(main())
