#!/usr/bin/env python3
"""Moves laws from crates/C/specs/ to crates/C/proofs/, so that a wrong edit of a definition leaves every file of specs/ readable.

usage: python3 tools/move_laws.py   at the top of the repository. Goes by names and paths; a second run changes nothing.

rt calls an edit BAD where a line of what the check says is an error in src/, specs/ or an edited file (wherever that stands) that names
no declaration first, as "2 declarations that depend on `x`, which was rejected, were not checked" and "`y` is not admitted: rejected" (of
a mutual block). So what depends on what an edit breaks stands in proofs/, in a file that no edit changes.
"""
import glob
import os
import re
import subprocess
import sys

# Whole files: (crate, module), with the modules below it.
MOVES = [
    # utf8-3__surrogates_in_grammar
    ("utf8", "Laws"),
    ("utf8", "Examples"),
    # hasRoom__nine_with_space_left, sixWords__start_off_by_one
    ("err", "ReportLaws"),
    ("err", "WellFormedLaws"),
    # sameTy__same_fields_any_order
    ("ptype", "SameLaws"),
    ("ptype", "DepthLaws"),
    ("ptype", "GrowLaws"),
    ("ptype", "InsideLaws"),
    ("ptype", "MarkLaws"),
    ("ptype", "UnfoldLaws"),
    # Pair__one_slot_free, fnParts__body_among_arguments, recordParts__values_are_names
    ("image_laws", "Accepted"),
    ("image_laws", "CaseLaws"),
    ("image_laws", "ListLaws"),
    ("image_laws", "NodeLaws"),
    ("image_laws", "NodesRead"),
    ("image_laws", "PartsBelow"),
    ("image_laws", "Places"),
    ("image_laws", "RecordLaws"),
    ("image_laws", "TypeLaws"),
    # image-certain__strictly_before
    ("certain", "ImageOwed"),
    # check__answered_as_1
    ("ending", "Ends"),
    # externWords__extern_too_long, room__let_three_words, records-within__a_word_more
    ("room_laws", "Records"),
    # Low__slot_below_last, poolBuffer__no_pool
    ("clean", "Walked"),
    # ToldWell__primary_outside, ToldWell__slot_of_no_argument, AtomKind__atom_of_kind_0
    ("onerun", "Report"),
    ("onerun", "Types"),
    # visitedParts__target_visited
    ("accepts", "OfImage"),
    # nodeOrStop__fn_without_frame
    ("stops", "Same"),

]
# What imports those may not stay in specs/ either, and is taken along too (`taken`): at the time of writing AcceptedInputs, Alone, Certain,
# Demands, Extended, Fresh, FreshRoots, FunctionRoom, LowSlots, NamesWell, Once and OtherSlots of accepts, LibraryOwed of certain, Clean of
# clean, Bounds of room_laws, NoStop and Indices of stops.
# Files of which some declarations stay in specs/ (constructors are named too); the others go to proofs/, to a module of the same name:
# (crate, module, names that stay).
KEEPS = [
    # type-as__one_word_fewer: the lemma that breaks, and what it needs
    ("trees", "TypeTrees", ["read_type", "type_as", "by_kind"]),
    # outside__pool_word_of_own: so too
    ("certain", "LibraryCertain", ["pool-same", "wrapped_same", "record_same", "drop-take"]),
    # Passed__a_slot_more, Early__up_to_five, visitedParts__target_visited
    ("accepts", "Passed", ["Passed"]),
    ("accepts", "Table", ["Early"]),
    ("accepts", "VisitedParts", ["numbers_of", "case_numbers", "value_numbers", "visited_parts", "entry_length"]),
    # SignatureTypes__slots_under_0, mostPairs__pairs_2048
    ("library_laws", "Slots", ["Measured", "slots_in", "SignatureTypes"]),
    ("library_laws", "Room", ["most_pairs", "RoomFor"]),
    # room__let_three_words
    ("room_laws", "Sums", ["own_room"]),
    # Goes__new_nodes_own_old_slots, Extended__packages_before
    ("tworuns", "Kept", ["Goes", "New"]),
    ("tworuns", "Larger", ["OwnedIn", "here", "further", "roots_after", "Extended", "Extends", "Ends"]),
    # ReadWell__first_primary
    ("clean", "Messages", ["ReadWell"]),
    # startState__packages_above
    ("ready", "Given", ["start_state"]),
    # FunctionWell__name_of_return_type, Message__from_second_byte
    ("rows_laws", "FnRows", ["NameWell", "TypeWell", "ParamWell", "FunctionWell"]),
    ("rows_laws", "Rows", ["Message"]),
    # AllTyped__poisoned_arguments_expected, meetsSlot__foreign_met
    ("stops", "SameCalls", ["AllTyped"]),

]
# Texts: (file, old, new), each done where the old text stands once; after the moves.
TEXTS = [
    # what breaks is a law that no other of the edited file cites
    (
        "crates/clean/must-fail/Low__slot_below_last.edit",
        "old:   Low slot = slot < slot_count image\nnew:   Low slot = slot + 1 < slot_count image\n",
        "old:   pub roots-proper : ProperAll (λ slot. slot < slot_count image) N (roots_of image)\n"
        "new:   pub roots-proper : ProperAll (λ slot. slot + 1 < slot_count image) N (roots_of image)\n",
    ),
    (
        "crates/clean/must-fail/poolBuffer__no_pool.edit",
        "old:   pool_buffer = buffer (pool_of words) (length (pool_of words))\nnew:   pool_buffer = buffer (pool_of words) 0\n",
        "old: (library_types words) → All (PackageOk r pool_buffer) (packages_of words)\n"
        "new: (library_types words) → All (PackageOk r (buffer (pool_of words) 0)) (packages_of words)\n",
    ),
    (
        "more-edits/certain/pool-same__pool_one_short.edit",
        "old:   pool-same : size + 2 ≤ k → pool' ≡ pool\nnew:   pool-same : size + 1 ≤ k → pool' ≡ pool\n",
        "old: pool-same : size + 2 ≤ k → pool' ≡ pool\nnew: pool-same : size + 1 ≤ k → pool' ≡ pool\n",
    ),
    # the names as they are spelled now
    ("more-edits/ptype/contains_slot__below.edit", "slotTy []", "slot_ty []"),
    (
        "crates/accepts/must-fail/visitedParts__target_visited.edit",
        "numberOf target ∷ numbers_of args",
        "number_of target ∷ numbers_of args",
    ),

]

# The same, before the rest: they part modules, so that the lemma that an edit breaks and what cites it are pieces of their own.
BEFORE = [
    (
        "crates/trees/specs/TypeTrees.antt",
        "  pub type-same : read_type go' image' at' ≡",
        """module _ {c : Counts} {image image' : List ℕ} {t at' : ℕ} {go go' : ℕ → TypeExpr} (a : Agree t go go') (r : TypeRead c image t)
    (same : SameWords image image' (type_place image t) at' (record_length image (type_place image t))) where
  pub type-same : read_type go' image' at' ≡""",
    ),
    (
        "crates/trees/specs/TypeTrees.antt",
        "  type-same = by_kind (record_kind",
        "  type-same = by_kind a r same (record_kind",
    ),
    ("crates/trees/specs/TypeTrees.antt", "\n  by_kind : ", "\n  pub by_kind : "),
    ("crates/trees/specs/TypeTrees.antt", "\ntype_as : ", "\npub type_as : "),
    ("crates/certain/specs/LibraryCertain.antt", "\ndrop-take : ", "\npub drop-take : "),
    ("crates/certain/specs/LibraryCertain.antt", "\n  pool-same : ", "\n  pub pool-same : "),
    ("crates/certain/specs/LibraryCertain.antt", "\n    wrapped_same : ", "\n    pub wrapped_same : "),
    ("crates/certain/specs/LibraryCertain.antt", "\n    record_same : ", "\n    pub record_same : "),
    (
        "crates/certain/specs/LibraryCertain.antt",
        "    type-same : good_type",
        """module _ {k : ℕ} {words words' : List ℕ} (agree : Agree k words words') (t : Texts) (size : ℕ) where
  abbrev pool : Pool
  pool = pool_read t words size

  abbrev pool' : Pool
  pool' = pool_read t words' size

  module _ (own w : ℕ) (low : own + 2 ≤ k) where
    type-same : good_type""",
    ),
    (
        "crates/certain/specs/LibraryCertain.antt",
        "    type-same = rw (wrapped_same, record_same) refl",
        "    type-same = rw (wrapped_same agree t size own w low, record_same agree t size own w low) refl",
    ),
    (
        "crates/stops/specs/SameCalls.antt",
        """  -- What visiting a call's arguments leaves. "arg typed before overload selection": where no argument is poisoned, each has a type.
  pub record AllTyped (xs : List Provided) (u : World) (poisoned : Bool) : Type 0 where
    pub typed : poisoned ≡ false → All (λ a. Recorded (run c) u a.slot) xs
    pub low : All (λ a. a.slot ≤ c.void) xs

""",
        "",
    ),
    ("crates/stops/specs/SameCalls.antt", " AllTyped xs", " AllTyped c xs"),
    ("crates/stops/specs/SameCalls.antt", "(AllTyped xs)", "(AllTyped c xs)"),
    (
        "crates/stops/specs/SameCalls.antt",
        "module _ (c : Ctx) where\n  -- ── `bind_slots`",
        """module _ (c : Ctx) where
  -- What visiting a call's arguments leaves. "arg typed before overload selection": where no argument is poisoned, each has a type.
  pub record AllTyped (xs : List Provided) (u : World) (poisoned : Bool) : Type 0 where
    pub typed : poisoned ≡ false → All (λ a. Recorded (run c) u a.slot) xs
    pub low : All (λ a. a.slot ≤ c.void) xs

module _ (c : Ctx) where
  -- ── `bind_slots`""",
    ),
    ("crates/rows_laws/specs/FnRows.antt", "  abbrev NameWell", "  abbrev pub NameWell"),
    ("crates/rows_laws/specs/FnRows.antt", "  abbrev TypeWell", "  abbrev pub TypeWell"),
    ("crates/rows_laws/specs/Rows.antt", "  abbrev Message", "  abbrev pub Message"),
]
# Modules that are parted where a text begins: (file, text, head of the second part, names of the first, what they take in the second).
PARTS = [
    ("crates/tworuns/specs/Kept.antt", "  same : (s : World)", "module _ (Old : ℕ → Type 0) where", ["New"], "Old"),
    (
        "crates/rows_laws/specs/FnRows.antt",
        "  -- words that are entries of such functions",
        "module _ (t : Texts) (types : List ℕ) where",
        ["NameWell", "TypeWell", "ParamWell", "FunctionWell"],
        "t types",
    ),
    ("crates/rows_laws/specs/Rows.antt", "  diags_octets : ", "module _ (ds ms : List ℕ) where", ["Message"], "ds ms"),
]

NAME = r"[^\s{}(),.;]+"


def read(path):
    with open(path, encoding="utf-8") as it:
        return it.read()


def write(path, text):
    os.makedirs(os.path.dirname(path) or ".", exist_ok=True)
    with open(path, "w", encoding="utf-8") as it:
        it.write(text)


def path_of(crate, part, module):
    return f"crates/{crate}/{part}/{module.replace('.', '/')}.antt"


def sources():
    for part in ("src", "specs", "proofs", "must-fail"):
        for it in glob.glob(f"crates/*/{part}/**/*", recursive=True):
            if it.endswith((".antt", ".rt", ".edit")):
                yield it
    yield from glob.glob("more-edits/*/*.edit")


def declare(crate, module):
    """Declares a module in proofs/Lib.antt, publicly."""
    path = f"crates/{crate}/proofs/Lib.antt"
    text = read(path) if os.path.isfile(path) else ""
    if re.search(rf"(?m)^mod {module}$", text):
        sys.exit(f"{path} declares {module} already")
    if not re.search(rf"(?m)^pub mod {module}$", text):
        write(path, text + ("" if not text or text.endswith("\n") else "\n") + f"pub mod {module}\n")


def undeclare(crate, module):
    path = f"crates/{crate}/specs/Lib.antt"
    write(path, re.sub(rf"(?m)^(pub )?mod {module}\n", "", read(path)))


def git_mv(old, new):
    os.makedirs(os.path.dirname(new), exist_ok=True)
    if os.path.exists(new):
        sys.exit(f"{new} stands already")
    if subprocess.run(["git", "mv", old, new], capture_output=True).returncode:
        os.rename(old, new)


def move(crate, module):
    old, new = path_of(crate, "specs", module), path_of(crate, "proofs", module)
    if os.path.isfile(old):
        git_mv(old, new)
        if os.path.isdir(old[:-5]):
            git_mv(old[:-5], new[:-5])
        undeclare(crate, module)
        declare(crate, module)
    elif not os.path.isfile(new):
        sys.exit(f"there is neither {old} nor {new}")


def chunks(text):
    """Returns the head of a file (comments and use lines), and its top-level pieces, each begun after a blank line."""
    lines = text.split("\n")
    last = max(i for i, it in enumerate(lines) if re.match(r"(pub )?use ", it))
    head, pieces, blank = lines[: last + 1], [], True
    for it in lines[last + 1 :]:
        if blank and it and not it[0].isspace():
            pieces.append([])
        if pieces:
            pieces[-1].append(it)
        blank = not it.strip()
    return "\n".join(head), ["\n".join(it).rstrip() for it in pieces]


def declared(piece):
    """Returns the names that a piece declares at its left edge."""
    names = set()
    for line in piece.split("\n"):
        found = re.match(rf"(?:(?:pub|unfoldable|abbrev|pattern|record|data|ruleset|infix[lr]? \d+) )*({NAME})", line)
        if found and not line.startswith("--"):
            names.add(found[1])
    if "module" in names:
        names |= {*re.findall(rf"(?m)^ +(?:(?:pub|unfoldable|abbrev) )*({NAME}) :", piece)}
        names |= {*re.findall(rf"(?m)^ +(?:pub )?(?:record|data) ({NAME}) ", piece)}
    return names


def used(head, body):
    """Leaves out of a file's use lines what its body does not name."""
    kept = []
    for line in head.split("\n"):
        found = re.match(r"((?:pub )?use \S+?)\.\{(.*)\}$", line)
        if not found:
            kept.append(line)
            continue
        if line.startswith("pub use"):
            continue
        names = [it.strip() for it in found[2].split(",")]
        whole = lambda it: re.search(rf"(?<![^\s(){{}},.]){re.escape(it)}(?![^\s(){{}},.])", body)
        names = [it for it in names if all(whole(p) if len(p) > 1 else p in body for p in it.split("◌") if p)]
        if names:
            kept.append(f"{found[1]}.{{{', '.join(names)}}}")
    return "\n".join(kept)


def keep(crate, module, names):
    old, new = path_of(crate, "specs", module), path_of(crate, "proofs", module)
    if os.path.isfile(new):
        return
    head, pieces = chunks(read(old))
    stay = [it for it in pieces if declared(it) & set(names)]
    go = [it for it in pieces if it not in stay]
    body = "\n\n".join(stay)
    write(old, used(head, body) + "\n\n" + body + "\n")
    write(new, f"{head}\nuse Rattle.{crate}.specs.{module}.{{{', '.join(names)}}}\n\n" + "\n\n".join(go) + "\n")
    declare(crate, module)


def respell(text, path):
    """Names the modules where they stand now."""
    for crate, module, names in KEEPS:
        whole = rf"Rattle\.{crate}\.specs\.{re.escape(module)}"

        def parted(found):
            it = [n.strip() for n in found[3].split(",") if n.strip()]
            stay = [n for n in it if n in names]
            go = [n for n in it if n not in names]
            lines = []
            if stay:
                lines.append(f"{found[1]}{found[2]}Rattle.{crate}.specs.{module}.{{{', '.join(stay)}}}{found[4]}")
            if go:
                lines.append(f"{found[1]}{found[2]}Rattle.{crate}.proofs.{module}.{{{', '.join(go)}}}{found[4]}")
            return "\n".join(lines)

        text = re.sub(rf"(?m)^(\s*)((?:pub |unfoldable |ghost )*use ){whole}\.\{{([^}}]*)\}}(;?)$", parted, text)
        if re.search(rf"{whole} as ", text):
            print(f"{path}: uses the whole of {crate}.{module}: that of proofs/")
            text = re.sub(rf"{whole} as ", f"Rattle.{crate}.proofs.{module} as ", text)
    for crate, module in MOVES:
        text = re.sub(rf"\bRattle\.{crate}\.specs\.{re.escape(module)}(?![\w'-])", f"Rattle.{crate}.proofs.{module}", text)
    return text


def taken():
    """Moves the files of specs/ that name what went to their own crate's proofs/, since they may not."""
    more = []
    for crate in sorted({it[0] for it in MOVES + KEEPS}):
        for path in sorted(glob.glob(f"crates/{crate}/specs/**/*.antt", recursive=True)):
            module = path[len(f"crates/{crate}/specs/") : -len(".antt")].replace("/", ".")
            if f"use Rattle.{crate}.proofs." in read(path):
                print(f"taken along: {crate} {module}")
                more.append((crate, module))
    MOVES.extend(more)
    return more


def main():
    if not os.path.isfile("crates.txt"):
        sys.exit("run it at the top of the repository")
    for path, old, new in BEFORE:
        text = read(path)
        if os.path.isfile(path.replace("/specs/", "/proofs/")):
            continue
        if old not in text:
            sys.exit(f"{path}: this text does not stand there: {old!r}")
        write(path, text.replace(old, new))
    for path, mark, head, names, takes in PARTS:
        text = read(path)
        if os.path.isfile(path.replace("/specs/", "/proofs/")):
            continue
        if text.count(mark) != 1:
            sys.exit(f"{path}: this text does not stand there once: {mark!r}")
        first, rest = text.split(mark)
        rest = mark + rest
        end = re.search(r"\n\n(?=\S)", rest)
        end = end.start() if end else len(rest)
        inside = re.sub(rf"(?<![\w'.-])({'|'.join(names)})(?![\w'-])", rf"(\1 {takes})", rest[:end])
        write(path, first.rstrip() + f"\n\n{head}\n" + inside + rest[end:])
    for it in KEEPS:
        keep(*it)
    for it in MOVES:
        move(*it)
    for path in sources():
        old = read(path)
        new = respell(old, path)
        found = re.match(r"(?:crates/(\w+)/must-fail|more-edits/(\w+))/", path)
        if found:
            crate = found[1] or found[2]
            for c, module in MOVES:
                if c == crate:
                    file = f"specs/{module.replace('.', '/')}"
                    new = re.sub(rf"(?m)^file: {file}(\.antt|/.*)$", lambda m: "file: " + m[0][6:].replace("specs/", "proofs/", 1), new)
            # a text that a split took along
            for c, module, _ in KEEPS:
                if c == crate and f"file: specs/{module.replace('.', '/')}.antt" in new:
                    olds = re.findall(r"(?m)^old: (.*)$", new)
                    if not any(o.strip() in read(path_of(c, "specs", module)) for o in olds):
                        new = new.replace(f"file: specs/{module.replace('.', '/')}.antt", f"file: proofs/{module.replace('.', '/')}.antt")
        if new != old:
            write(path, new)
    if taken():
        return main()
    for path, old, new in TEXTS:
        text = read(path) if os.path.isfile(path) else ""
        if text.count(old) == 1 and (new not in text or new in old):
            write(path, text.replace(old, new))
        elif not new or new not in text:
            print(f"{path}: this text does not stand there once: {old[:80]!r}")
    for path in ["README.md", *glob.glob("docs/*.md"), "more-edits/TABLE.md"]:
        old = new = read(path)
        for crate, module in MOVES:
            file = module.replace(".", "/")
            new = re.sub(rf"\b{crate}/specs/{file}(?=\.antt|/)", f"{crate}/proofs/{file}", new)
        if new != old:
            write(path, new)
    for crate in sorted({it[0] for it in MOVES + KEEPS}):
        for path in glob.glob(f"crates/{crate}/src/**/*.rt", recursive=True):
            for line in read(path).split("\n"):
                if f"Rattle.{crate}.proofs." in line:
                    print(f"{path} names its own crate's proofs: {line[:120]}")


if __name__ == "__main__":
    main()
