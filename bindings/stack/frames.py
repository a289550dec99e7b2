#!/usr/bin/env python3
"""Sums the stack frames of libshelfstork.a along the longest chain of calls, from what `objdump -d` shows.

  frames.py ARCHIVE [--frames]

For each function: how far %rsp lies below the return address at each call (pushes, `sub $N,%rsp`). Functions that call each other in a ring are taken
apart at the functions of RINGS, each of which stands on the stack at most so many times at once.
"""
import re
import subprocess
import sys
from collections import namedtuple

# How many of a function's frames stand on the stack at once, at most, and why. A ring of calls must go through one of these each time round; of several
# that would do, the first here is taken. A ring that goes through none is an error.
LEVELS = "types are followed 33 levels deep, and stop at the 34th"
RINGS = [(name, most, why) for names, most, why in (
    ("typecheck::node typecheck::part typecheck::func typecheck::cases typecheck::case typecheck::call typecheck::array "
     "typecheck::record_node typecheck::bin typecheck::one typecheck::cast", 64, "node depth"),
    ("spans::span_of", 1, "a level of a part's span stands in place of a level of the walk, which takes more"),
    ("ptype::same_type_within ptype::stands_in ptype::depth_within ptype::room_after ptype::same_fields ptype::stands_among ptype::deepest_of "
     "ptype::room_after_fields ptype::contains ptype::depth_of display::show_within display::show_fields slots::bind_within", 34, LEVELS),
    ("apply::apply_within apply::applied_size apply::applied_sizes slots::has_bound_slot_within", 34, LEVELS),
    ("type_expr::build type_expr::fields_from_exprs", 33, "it is called for type expressions of at most 33 levels"),
    ("type_expr::type_size type_expr::sizes", 34, "asked of types that were made: at most 32 levels"),
    ("display::put_digits", 11, "digits"),
) for name in names.split()]
ORDER = [name for name, _, _ in RINGS]
ACTIVE = {name: (most, why) for name, most, why in RINGS}
# These hand the levels that are left on to each other: all their turns together are no more than one's.
SHARED, TURNS = {"apply::apply_within", "apply::applied_size", "slots::has_bound_slot_within"}, 33

# Functions of the C library, which are not in the archive. Bytes that they may take.
OUTSIDE = {"memcpy": 64, "memmove": 64, "memset": 64, "memcmp": 64, "bcmp": 64}

# own: bytes below the return address that the function itself takes; calls: callee to bytes at the call, the return address included
Function = namedtuple("Function", "own calls")
Instruction = namedtuple("Instruction", "at name words symbol")

PREFIXES = ("notrack", "bnd", "rep", "repz", "lock", "data16", "cs")
HEADING = re.compile(r"^([0-9a-f]+) <(.+)>:$")
LINE = re.compile(r"^\s*([0-9a-f]+):\t(\S+)\s*(.*)$")
# (a generic function's name has a # of its own)
COMMENT = re.compile(r"\s#\s")
RELOCATION = re.compile(r"^\s*[0-9a-f]+: R_X86_64_(\w+)\s+(.+)$")
TARGET = re.compile(r"^([0-9a-f]+)(?: <(.+?)(?:\+0x[0-9a-f]+)?>)?$")


def disassembled(archive):
    """Name to instructions. A direct call or jump has the name that it goes to in `symbol`, or its target in `words`."""
    text = subprocess.run(["objdump", "-dr", "--no-show-raw-insn", archive], stdout=subprocess.PIPE, check=True, text=True).stdout
    out, body = {}, None
    for line in text.splitlines():
        heading, one, moved = HEADING.match(line), LINE.match(line), RELOCATION.match(line)
        if heading:
            body = out.setdefault(heading.group(2), [])
        elif moved and body:
            if moved.group(1) in ("PLT32", "PC32") and body[-1].name in ("call", "jmp"):
                body[-1] = body[-1]._replace(symbol=re.sub(r"^\.text\.|[-+]0x[0-9a-f]+$", "", moved.group(2)))
        elif one and body is not None:
            name, words = one.group(2), COMMENT.split(one.group(3))[0].strip()
            if name in PREFIXES and words:
                name, words = (words.split(None, 1) + [""])[:2]
            body.append(Instruction(int(one.group(1), 16), {"callq": "call", "jmpq": "jmp", "retq": "ret"}.get(name, name), words, None))
    return {name: body for name, body in out.items() if body}


def plain(name):
    """A generic function's name without what tells its instances apart."""
    return re.sub(r"::<.*>$", "", name)


def signed(text):
    n = int(text, 16)
    return n - (1 << 64) if n >> 63 else n


def moved(i, depth, base, probe):
    """Depth of %rsp, depth of %rbp as a frame's base, and where a loop of probes ends, after an instruction."""
    w = i.words
    if i.name in ("push", "pushq"):
        return depth + 8, base, probe
    if i.name in ("pop", "popq"):
        return depth - 8, base, probe
    if i.name == "leave":
        return base - 8, base, probe
    m = re.match(r"^\$0x([0-9a-f]+),%rsp$", w)
    if m and i.name in ("sub", "subq"):
        return depth + signed(m.group(1)), base, probe
    if m and i.name in ("add", "addq"):
        return depth - signed(m.group(1)), base, probe
    if m and i.name in ("and", "andq"):
        return depth - signed(m.group(1)) - 8, base, probe
    if w == "%rsp,%rbp" and i.name == "mov":
        return depth, depth, probe
    m = re.match(r"^(-?)0x([0-9a-f]+)\((%rsp|%rbp)\),(%rsp|%r11)$", w)
    if m and i.name == "lea":
        to = (depth if m.group(3) == "%rsp" else base) - int(m.group(1) + m.group(2), 16)
        return (to, base, probe) if m.group(4) == "%rsp" else (depth, base, to)
    if w == "%rsp,%r11" and i.name == "mov":
        return depth, base, depth
    m = re.match(r"^\$0x([0-9a-f]+),%r11$", w)
    if m and i.name == "sub":
        return depth, base, probe + signed(m.group(1))
    if w == "%r11,%rsp" and i.name == "cmp":
        return probe, base, probe
    if re.search(r",%rsp$|^%rsp$", w) and i.name not in ("cmp", "test"):
        raise ValueError("%x: %s %s: %%rsp changed in a way that is not known" % (i.at, i.name, w))
    return depth, base, probe


def frame(name, body):
    """How deep a function goes, and at which depth it calls which."""
    index = {i.at: k for k, i in enumerate(body)}
    depth, calls, most, jumps = {}, {}, 0, []
    work = [(0, (0, 0, 0))]
    while True:
        while work:
            k, at = work.pop()
            while k < len(body):
                i = body[k]
                if depth.get(k, at[0]) != at[0]:
                    raise ValueError("%s: %%rsp at two depths, %d and %d" % (name, depth[k], at[0]))
                if k in depth:
                    break
                depth[k] = at[0]
                at = moved(i, *at)
                most = max(most, at[0])
                target = TARGET.match(i.words)
                if i.name == "call":
                    callee = i.symbol or target and target.group(2)
                    if not callee:
                        raise ValueError("%s calls what is not known: %s" % (name, i.words))
                    calls[callee] = max(calls.get(callee, 0), at[0] + 8)
                elif i.name.startswith("j"):
                    inside = target and int(target.group(1), 16)
                    if i.symbol and i.symbol != name or inside is not None and not i.symbol and inside not in index:
                        callee = i.symbol or target.group(2)
                        calls[callee] = max(calls.get(callee, 0), at[0])
                    elif target and body[k - 1].words == "%r11,%rsp":
                        pass  # back into a loop of probes, which was taken at its end
                    elif target:
                        work.append((index[inside], at))
                    else:
                        jumps.append(at)
                    if i.name == "jmp":
                        break
                elif i.name in ("ret", "ud2", "hlt"):
                    break
                k += 1
        # Through a table of jumps come blocks to which nothing else leads: at the depth of the jump.
        left = [k for k in range(len(body)) if k not in depth and not body[k].name.startswith(("nop", "int3", "xchg"))]
        if not left or not jumps:
            break
        work = [(left[0], jumps[-1])]
    return Function(most, calls)


def rings_of(graph):
    """The strongly connected parts, callees before callers (Tarjan)."""
    number, low, stack, out = {}, {}, [], []

    def visit(f):
        number[f] = low[f] = len(number)
        stack.append(f)
        for g in graph[f].calls:
            if g not in graph:
                continue
            if g not in number:
                visit(g)
                low[f] = min(low[f], low[g])
            elif g in stack:
                low[f] = min(low[f], number[g])
        if low[f] == number[f]:
            at = stack.index(f)
            out.append(stack[at:])
            del stack[at:]
    sys.setrecursionlimit(10000)
    for f in graph:
        if f not in number:
            visit(f)
    return out


def acyclic_order(graph, members):
    """Callees before callers, or None if they call each other in a ring."""
    left, order = set(members), []
    while left:
        free = [f for f in left if not any(g in left for g in graph[f].calls)]
        if not free:
            return None
        order += sorted(free)
        left -= set(free)
    return order


# A cost is a table: the largest turn of the SHARED functions on the way (0 if none) to the bytes without their turns, and lines that say where they
# come from. The whole is the most of bytes + TURNS x turn.

def joined(*costs):
    out = {}
    for cost in costs:
        for turn, (size, lines) in cost.items():
            if turn not in out or size > out[turn][0]:
                out[turn] = (size, lines)
    return out


def after(cost, size, *lines):
    """A cost that begins so many bytes deeper."""
    return {turn: (size + more, lines + rest) for turn, (more, rest) in cost.items()}


class Sum:
    def __init__(self, graph):
        self.graph, self.cost, self.turns = graph, {}, {}
        for ring in rings_of(graph):
            if len(ring) == 1 and ring[0] not in graph[ring[0]].calls:
                self.cost[ring[0]] = self.leaving(ring[0], {}, set())
            else:
                self.ring(ring)

    def leaving(self, f, inside, ring):
        """What f takes with no further turn: by itself, through calls out of the ring, or through those in `inside`."""
        cost = {0: (self.graph[f].own, ("%s: %s" % (f, format(self.graph[f].own, ",")),))}
        for g, at in self.graph[f].calls.items():
            rest = inside.get(g) if g in ring else self.cost[g] if g in self.cost else {0: (OUTSIDE[g], ())}
            if rest:
                cost = joined(cost, after(rest, at, "%s: %s" % (f, format(at, ","))))
        return cost

    def cut(self, ring):
        """The functions at which a ring is taken apart, as few as will do, and the others, callees first."""
        cut = [f for f in ring if plain(f) in ACTIVE]
        for f in sorted(cut, key=lambda f: ORDER.index(plain(f)), reverse=True):
            if acyclic_order(self.graph, set(ring) - set(cut) | {f}) is not None and f not in self.graph[f].calls:
                cut.remove(f)
        order = acyclic_order(self.graph, set(ring) - set(cut))
        if not cut or order is None:
            raise ValueError("these call each other, and nothing is known of how often: %s" % ", ".join(sorted(ring)))
        return cut, order

    def ring(self, ring):
        cut, order = self.cut(ring)
        # turn: the most from a function's start to the start of one in `cut`, and the way there
        turn, leaves = {}, {}
        for f in order + cut:
            ways = [(at, (f,)) for g, at in self.graph[f].calls.items() if g in cut]
            ways += [(at + turn[g][0], (f,) + turn[g][1]) for g, at in self.graph[f].calls.items() if g in turn and g not in cut and turn[g]]
            turn[f] = max(ways, default=None)
            leaves[f] = self.leaving(f, {g: cost for g, cost in leaves.items() if g not in cut}, set(ring))
        told = {c: "%%d x %s: %s (%s)" % (format(turn[c][0], ","), ", ".join(turn[c][1]), ACTIVE[plain(c)][1]) for c in cut}
        if "spans::span_of" in cut and turn["spans::span_of"][0] > 1000:
            raise ValueError("a level of spans::span_of takes %d bytes: is that still less than a level of the walk?" % turn["spans::span_of"][0])
        last = joined(*[leaves[c] for c in cut])
        if set(cut) <= SHARED:
            most = max(turn[c][0] for c in cut)
            entry = joined(*[{max(most, w): cost} for w, cost in last.items()])
            self.turns[most] = [told[c] for c in cut if turn[c][0] == most][0]
        else:
            # The last frame of a single one goes round no more.
            times = {c: ACTIVE[plain(c)][0] - (1 if len(cut) == 1 else 0) for c in cut}
            entry = after(last, sum(times[c] * turn[c][0] for c in cut), *[told[c] % times[c] for c in cut])
        for f in cut:
            self.cost[f] = entry
        for f in order:
            self.cost[f] = joined(leaves[f], after(entry, turn[f][0], "%s: %s" % (", ".join(turn[f][1]), format(turn[f][0], ","))) if turn[f] else {})

    def most(self, f):
        """(bytes, lines)"""
        size, turn, lines = max((size + TURNS * turn, turn, lines) for turn, (size, lines) in self.cost[f].items())
        return size, list(lines) + ([self.turns[turn] % TURNS] if turn else [])


def worst(archive, entry="shelfstork_check"):
    """Bytes below the caller's frame, the return address included, and lines that say where they come from."""
    bodies, graph, left = disassembled(archive), {}, [entry]
    while left:
        name = left.pop()
        if name in bodies and name not in graph:
            graph[name] = frame(name, bodies[name])
            left += graph[name].calls
    unknown = sorted({g for f in graph.values() for g in f.calls if g not in graph and g not in OUTSIDE})
    if unknown:
        raise ValueError("not in the archive: %s" % ", ".join(unknown))
    size, lines = Sum(graph).most(entry)
    return 8 + size, lines


def main():
    if "--frames" in sys.argv:
        for name, body in disassembled(sys.argv[1]).items():
            f = frame(name, body)
            print("%8d  %s  %s" % (f.own, name, " ".join("%s@%d" % c for c in f.calls.items())))
    total, lines = worst(sys.argv[1], *[a for a in sys.argv[2:] if not a.startswith("--")])
    print("\n".join(lines + ["%s bytes" % format(total, ",")]))


if __name__ == "__main__":
    main()
