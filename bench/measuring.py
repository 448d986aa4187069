"""What a command takes, processor time and memory, and trees to try it on."""
import os
import random
import subprocess
import sys


def measured(words, folder, inside=None):
    """Runs a command, inside a folder where one is given, and answers its seconds of processor time, its KiB of memory and its
    status. What it prints goes to the file `out` of the folder."""
    told = os.path.abspath(os.path.join(folder, "memory"))
    with open(os.path.join(folder, "out"), "wb") as out:
        child = subprocess.Popen(["/usr/bin/time", "-q", "-o", told, "-f", "%M", *words], stdout=out, stderr=subprocess.DEVNULL, cwd=inside)
        _, status, used = os.wait4(child.pid, 0)
    with open(told) as file:
        return used.ru_utime + used.ru_stime, int(file.read().split()[-1]), os.waitstatus_to_exitcode(status)


def taken(words, folder):
    """The same for a command that must not fail: its seconds and its KiB."""
    seconds, memory, status = measured(words, folder)
    if status != 0:
        sys.exit(f"{words} failed")
    return seconds, memory


def least_in_turn(commands, folder, runs):
    """The least seconds of processor time of each command over the runs, in which they go in turn. All have to print the same."""
    told, times = set(), [[] for _ in commands]
    for _ in range(runs):
        for words, tries in zip(commands, times):
            tries.append(taken(words, folder)[0])
            with open(f"{folder}/out", "rb") as out:
                told.add(out.read())
    if len(told) != 1:
        sys.exit(f"{commands[0]}: the sums differ: {told}")
    return [min(tries) for tries in times]


def documents():
    """English: the documents, one after the other."""
    folder = os.path.join(os.path.dirname(os.path.abspath(__file__)), "../docs")
    names = sorted(name for name in os.listdir(folder) if name.endswith(".md"))
    return b"".join(open(os.path.join(folder, name), "rb").read() for name in names)


def machine_code():
    """From a quarter of a program on, where its code is."""
    with open(os.path.realpath("/bin/bash"), "rb") as file:
        code = file.read()
    return code[len(code) // 4 :]


def report(tries, first):
    """Prints what each command took: the least time over its runs, as a multiple of that of the first, and the greatest memory."""
    least = min(tries[first])[0]
    for name, runs in tries.items():
        seconds, memory = min(runs)[0], max(memory for _, memory, _ in runs)
        states = {status for _, _, status in runs} - {0}
        print(f"  {name:18} {seconds:8.3f} s {seconds / least:8.2f} times {memory:7} KiB" + (f"  status {states}" if states else ""), flush=True)


def program_of(words, place):
    """The program that the word at this place names, or that was built in the crates that it names; without it, that built here."""
    here = os.path.join(os.path.dirname(os.path.abspath(__file__)), "../crates")
    named = os.path.abspath(words[place] if len(words) > place else here)
    return named if os.path.isfile(named) else f"{named}/jffs2_image/out/jffs2_image"


def random_tree(folder, count, length):
    """Makes a tree of so many files of this length, a hundred in a folder. The same numbers make the same bytes."""
    chance = random.Random(count)
    for number in range(count):
        inside = os.path.join(folder, f"d{number // 100:03}")
        os.makedirs(inside, exist_ok=True)
        with open(os.path.join(inside, f"f{number:05}"), "wb") as out:
            out.write(chance.randbytes(length))


def mixed_tree(folder, count, length):
    """Makes such a tree of text and of machine code in turn, each file from another place. The same numbers make the same bytes."""
    sources = [source * (1 + length // len(source)) for source in (documents(), machine_code())]
    for number in range(count):
        inside, source = os.path.join(folder, f"d{number // 100:03}"), sources[number % 2]
        os.makedirs(inside, exist_ok=True)
        start = number * 77777 % (len(source) - length + 1)
        with open(os.path.join(inside, f"f{number:05}"), "wb") as out:
            out.write(source[start : start + length])
