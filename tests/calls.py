#!/usr/bin/env python3
"""Holds two calls to what no contract can say. The chain call is a loop: no function that it uses calls itself, straight or through others,
so the number of frames has a bound that does not depend on the quotients. The call for the longest chains takes constant time: no function
that it uses calls itself or has a loop. Both are looked for twice: in the code that is proved, as the libraries below the console keep it for
the compiler, from the functions that the two calls are written over; and in the machine code of the archive, whose path is the argument, from
the two calls themselves. The pair call, whose word readers call each other, and the chain call's loop show that both are seen."""
import json
import re
import subprocess
import sys
from pathlib import Path


def proved():
    """What each function of the libraries calls by name, those that have a loop, those that call through a trait what only their callers know,
    and the methods of the impls that each hands in, closures among them: the code that is proved, which a build of a library keeps, and that
    of the standard library. Any other call that names no function gets a name that no function has, so that it is refused where one of the two
    calls uses it."""
    calls, loops, asking, handed = {}, set(), set(), {}
    kit = Path(subprocess.run(["rt", "doc"], stdout=subprocess.PIPE, check=True, text=True).stdout.strip()).parent
    for file in [*Path("crates").glob("*/out/rlib/*.rlib/toolchain/mir.json"), kit / "rlibs/core.rlib/toolchain/mir.json"]:
        for name, function in json.loads(file.read_text()):
            if name in calls:
                sys.exit(f"{name}: defined twice")
            calls[name] = set()
            handed[name] = {method for impl in function["generics"]["impls"] for method in impl["methods"]}
            ahead = [function["body"]]
            while ahead:
                part = ahead.pop()
                if part == "Loop":
                    loops.add(name)
                elif isinstance(part, list):
                    ahead += part
                elif isinstance(part, dict):
                    for kind, inside in part.items():
                        if kind == "Call" and list(inside[0]) == ["Fn"]:
                            calls[name].add(inside[0]["Fn"][0])
                        elif kind == "Call" and list(inside[0]) == ["Method"] and list(inside[0]["Method"][0]) == ["Given"]:
                            asking.add(name)
                        elif "Call" in kind:
                            calls[name].add(f"a function that only a caller of {name} names")
                        elif kind == "Loop":
                            loops.add(name)
                        ahead.append(inside)
    return calls, loops, asking, handed


def compiled(archive):
    """The same of the archive's machine code. A jump back is a loop, and so is an instruction that repeats itself. A jump or a call to a place
    that is known only as the code runs gets a name that no function has, so that it is refused where one of the two calls uses it."""
    listing = subprocess.run(["objdump", "-dr", "--no-show-raw-insn", archive], stdout=subprocess.PIPE, check=True, text=True).stdout
    calls, loops, name = {}, set(), None
    lines = listing.splitlines()
    for line, behind in zip(lines, lines[1:] + [""]):
        head = re.fullmatch(r"([0-9a-f]+) <(.*)>:", line)
        step = re.match(r" *([0-9a-f]+):\t(.*)", line)
        if head:
            name = head[2]
            if name in calls or int(head[1], 16) != 0:
                sys.exit(f"{name}: defined twice, or not in a section of its own")
            calls[name] = set()
        elif step:
            words = step[2].split()
            if any(it.startswith("rep") for it in words[:2]):
                loops.add(name)
            jump = [it for it in words if re.match(r"j|call|loop|xbegin", it)]
            if not jump:
                continue
            to = re.search(r"<(.*?)(?:\+0x([0-9a-f]+))?>$", step[2])
            away = re.match(r"\t\t\t[0-9a-f]+: R_X86_64_(?:PLT|PC)32\t(.*)-0x4$", behind)
            if "*" in step[2] or not to:
                calls[name].add(f"a place that is known only as {name} runs")
            elif away:
                calls[name].add(re.sub(r"^\.text\.", "", away[1]))
            elif behind.startswith("\t\t\t") or to[1] != name:
                sys.exit(f"{name}: a jump in another form: {step[2]}")
            elif jump[0].startswith("call"):
                calls[name].add(name)
                if to[2]:
                    sys.exit(f"{name}: a call into its own middle")
            elif int(to[2] or "0", 16) <= int(step[1], 16):
                loops.add(name)
    return calls, loops, set(), {}


def hold(code, known, chain, longest, pair):
    calls, loops, asking, handed = code

    def below(name):
        """What each function calls that a function uses. One that calls through a trait is taken to call all methods of all impls that one of
        these functions hands in, so that a method that calls back whom it was handed to is seen, however far down the impl was passed."""
        given = set()
        while True:
            found, ahead = {}, [name]
            while ahead:
                at = ahead.pop()
                if at in found:
                    continue
                if at not in calls and at not in known:
                    sys.exit(f"{name} calls {at}, whose code is not here")
                found[at] = calls.get(at, set()) | (given if at in asking else set())
                ahead += found[at]
            more = set().union(*(handed.get(at, set()) for at in found))
            if more == given:
                break
            given = more
        blind = sorted(at for at in found if at in asking)
        if blind and not given:
            sys.exit(f"{name} uses {blind[0]}, which calls a method that nothing hands in")
        return found

    def used(graph, name):
        """The functions that a function calls, straight or through others."""
        found, ahead = set(), [name]
        while ahead:
            new = graph[ahead.pop()] - found
            found |= new
            ahead += new
        return found

    def calling_themselves(name):
        graph = below(name)
        return sorted(f for f in graph if f in used(graph, f))

    def frames(name):
        graph = below(name)

        def deep(at):
            return 1 + max((deep(f) for f in graph[at]), default=0)

        return deep(name)

    def looping(name):
        return sorted(below(name).keys() & (loops | known))

    if calling_themselves(chain):
        sys.exit(f"chain call: {', '.join(calling_themselves(chain))}: calls itself")
    if calling_themselves(longest) + looping(longest):
        sys.exit(f"longest chains: {', '.join(calling_themselves(longest) + looping(longest))}: calls itself or has a loop")
    if not calling_themselves(pair) or not looping(chain):
        sys.exit("no word reader is seen to call another, or the chain call is seen to have no loop")
    print(f"{chain}: {len(below(chain)) - 1} functions below it, none calls itself; {frames(chain)} frames at most")
    print(f"{longest}: {len(below(longest)) - 1} functions below it, none calls itself or has a loop")


hold(proved(), set(), "euclid::quotients", "longest::longest_chains", "pairs::pair::pair_at")
hold(compiled(sys.argv[1]), {"memcpy", "memset"}, "dw_chain", "dw_longest_chains", "dw_pair_at")
