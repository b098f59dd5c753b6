"""Scripts of heap commands for the tables of bench/: what is grown to a size, the commands that are timed over it, and whole workloads."""

import random

SIZES = (1_000, 10_000, 100_000, 1_000_000)


def lines(*parts):
    """One script of the parts, each of which is a text whose lines end with a line feed."""
    return "".join(parts)


def objects(count):
    """So many structs, each of which names the one before it, all under one global; no scoped root is left."""
    return lines("struct m:any\nstruct m:any m:i32\narray m:i32\nexn i32\narray m:i8\n", "enter\nnew 1 0 any:null\n", "new 1 0 r1\n" * (count - 1), "gset 0 1\nleave\n")


def roots(count):
    """So many scoped roots of small integers, and one of a struct."""
    return lines("struct m:any m:i32\nnew 1 0 any:null i32:0\n", "i31 1 5\n" * count)


def scopes(count):
    """So many open scopes, each with nothing in it."""
    return lines("struct m:any m:i32\n", "enter\n" * count)


def types(count):
    """So many struct types, of which only the first has fields; there is one struct."""
    return lines("struct m:any m:i32\nnew 1 0 any:null i32:0\n", "struct\n" * (count - 1))


def slots(count):
    """So many slots of open frames; a frame has at most 65,535."""
    whole, rest = divmod(count, 65_535)
    return lines("struct m:any m:i32\ni31 1 5\n", "push 65535\n" * whole, f"push {rest}\n" if rest else "")


def owned_roots(count):
    """So many owned roots of one small integer, each in a register of its own; there are 65,536 of these."""
    return lines("i31 1 5\n", "".join(f"own {register} 1\n" for register in range(min(count, 65_536))))


def host_values(count):
    """So many host values, each with a scoped root."""
    return lines("host 1 5\n" * count)


# What is grown, and the commands that are timed over it, each with what comes before it is repeated. A command of several lines is
# timed as one. Nothing here is refused, but `throw`, whose reply is always a refusal.
GROWN = {
    "objects": (objects, {
        "new": ("enter\n", "new 2 1 any:null i32:7\n"),
        "newexn": ("enter\n", "newexn 2 3 0 i32:7\n"),
        "newarr": ("enter\n", "newarr 2 2 4 i32:7\n"),
        "fixed": ("enter\n", "fixed 2 2 i32:7 i32:8 i32:9 i32:10\n"),
        "bytes, made": ("enter\n", "bytes 2 4 0708090a\n"),
        "field": ("new 1 1 any:null i32:0\n", "field 1 1\n"),
        "setf": ("new 1 1 any:null i32:0\n", "setf 1 1 i32:7\n"),
        "setf, a reference": ("new 1 1 any:null i32:0\n", "setf 1 0 r1\n"),
        "sete": ("newarr 1 2 4 i32:7\n", "sete 1 3 i32:7\n"),
        "elem": ("newarr 1 2 4 i32:7\n", "elem 1 3\n"),
        "bytes, read": ("bytes 1 4 0708090a\n", "bytes 1 4\n"),
        "len": ("newarr 1 2 4 i32:7\n", "len 1\n"),
        "eq": ("gget 0 1\n", "eq 1 1\n"),
        "gset": ("gget 0 1\n", "gset 1 1\n"),
        "gget": ("", "gget 0 1\n"),
        "throw, take": ("newexn 1 3 0 i32:7\n", "throw 1\ntake 2\n"),
        "grow, by nothing": ("", "grow 0\n"),
        "cap": ("", "cap\n"),
    }),
    "scoped roots": (roots, {
        "i31": ("", "i31 1 5\n"),
        "new": ("", "new 2 0 any:null i32:7\n"),
        "enter, i31, leave": ("", "enter\ni31 2 5\nleave\n"),
        "eq": ("", "eq 1 1\n"),
        "own, unroot": ("", "own 0 1\nunroot 0\n"),
    }),
    "scopes": (scopes, {"enter": ("", "enter\n"), "enter, leave": ("", "enter\nleave\n")}),
    "types": (types, {"struct": ("", "struct m:i32\n"), "array": ("", "array m:i32\n"), "exn": ("", "exn i32\n"), "new": ("", "new 2 0 any:null i32:7\n")}),
    "slots": (slots, {"store": ("push 8\n", "store 3 1\n"), "load": ("push 8\nstore 3 1\n", "load 3 2\n"), "push, pop": ("", "push 8\npop\n")}),
    "owned roots": (owned_roots, {"own": ("", "own 0 1\n"), "root": ("", "root 1 0\n")}),
    "host values": (host_values, {"host": ("", "host 2 5\n"), "data": ("", "data 1\n")}),
}

# Collections over what was grown, by which command: the time is told for each thing that stands.
COLLECTED = {
    "objects": (objects, "gc\n"),
    "objects, by increments": (objects, "gcinc\n"),
    "objects, begun and dropped": (objects, "gcdrop\n"),
    "scoped roots": (roots, "gc\n"),
    "slots": (slots, "gc\n"),
    "host values": (host_values, "gc\n"),
}


def deep():
    return 2 * lines("enter\nnew 1 0 any:null\n", "new 1 0 r1\n" * 99_999, "leave\ngc\n")


def held():
    return lines("new 1 0 any:null\n", "new 1 0 r1\n" * 200_000, "gc\n" * 20)


def graph():
    """64 slots whose objects are linked and unlinked at random, with a collection each thousand commands or so."""
    draw = random.Random(11)
    out = ["struct m:any m:any m:any m:i32", "push 64"]
    for slot in range(64):
        out += [f"new 1 1 any:null any:null any:null i32:{slot}", f"store {slot} 1"]
    for turn in range(30_000):
        first, second, target = draw.randrange(64), draw.randrange(64), draw.randrange(64)
        out += ["enter", f"load {first} 1", f"load {second} 2"]
        if turn % 3 == 0:
            out += [f"new 3 1 r1 r2 any:null i32:{turn}", f"store {target} 3"]
        else:
            out += [f"setf 1 {draw.randrange(3)} {'r2' if turn % 3 == 1 else 'any:null'}", "eq 1 2"]
        out.append("leave")
        if turn % 160 == 0:
            out.append("gc")
    return "\n".join(out) + "\n"


# Whole runs: the words behind the program's name, and its input.
WORKLOADS = {
    "two lists of 100,000 cells, each dropped and collected": [(f"{kind} 1 {most}", lines("struct m:any\n", deep())) for kind, most in (("copying", 4096), ("counting", 4096), ("null", 65_535))],
    "200,001 rooted structs and 20 collections": [(f"{kind} 1 {most}", lines("struct m:any\n", held())) for kind, most in (("copying", 4096), ("counting", 4096), ("null", 65_535))],
    "64 slots, linked at random": [(f"{kind} 1 {most}", lines("struct m:any\n", graph())) for kind, most in (("copying", 4096), ("counting", 4096), ("null", 65_535))],
    "200,000 reads and writes of numbers": [("copying 1 64", lines("struct m:i32 m:i64\nnew 1 0 i32:1 i64:2\n", "setf 1 0 i32:-2147483648\nfield 1 0\nsetf 1 1 i64:9223372036854775807\nfield 1 1\n" * 50_000))],
    "200,000 scopes, each with a root": [("copying 1 64", lines("enter\n" * 200_000, "i31 1 5\n" * 200_000, "leave\n" * 200_000))],
    "2,000,000 empty lines": [("copying 1 64", "\n" * 2_000_000)],
    "the script that is made, 500,004 commands": [(f"{kind} 1 {most} churn 100000", "") for kind, most in (("copying", 64), ("counting", 64), ("null", 65_535))],
    "100,000 inserts into a map": [(f"{kind} 1 64 lists 100000", "") for kind in ("copying", "counting")],
}
