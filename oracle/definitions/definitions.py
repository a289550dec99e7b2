"""The repository's definitions in a temporary repository, and theorems over them that `rt check` decides by computing.

Taken are the files of `specs/` that the check and its rows rest on, and the types that `src/` declares: the definitions, without laws and
without the code that is proved against them. So an edited definition can be computed although no law and no code holds of it.
"""
import os
import re
import shutil
import subprocess
import tempfile
import time

# what the theorems cite; all that these rest on is taken
TOPS = [("refusals", "Run"), ("rules", "Run"), ("rules", "Rows")]

HEAD = """use Prim.Native.Nat.{ℕ, zero, suc, _+_}
use mathlib.Core.Bool.{Bool, true, false, _&&_}
use mathlib.Core.Path.{_≡_, refl}
use mathlib.Core.Option.{Option, none, some}
use mathlib.Core.List.{List, [], _∷_, _++_}
use lib.ListN.{replicate, getD, take, drop}
use lib.Dec.{eqb, leb}
use Rattle·tok.specs.Text.{Texts, text}
use Rattle·tok.specs.Step.{Refusal, refusal}
use Rattle·ptype.specs.Show.{decimal}
use Rattle·ast.specs.Image.{slotCount}
use Rattle·refusals.specs.Inputs.{Inputs, Buffers}
use Rattle·refusals.specs.Run.{refusalRun}
use Rattle·rules.specs.Check.{Ended, refusedWith}
use Rattle·rules.specs.Rows.{line, slotRows, fnRows, diagRows}
use Rattle·rules.specs.Run.{checkRun, rowsRun}

-- rows as the oracle prints them with --full --counts: each primary message, and the four used counts
primaryRow : (messages : List ℕ) → (start size : ℕ) → List ℕ
primaryRow messages start zero = []
primaryRow messages start (suc n) = line (text "primary" ∷ take (suc n) (drop start messages) ∷ [])

fullDiags : (diagnostics messages : List ℕ) → (at k : ℕ) → List ℕ
fullDiags diagnostics messages at zero = []
fullDiags diagnostics messages at (suc k) =
    diagRows diagnostics messages at 1
    ++ primaryRow messages (getD diagnostics (at + 3) 0 + getD diagnostics (at + 4) 0) (getD diagnostics (at + 5) 0)
    ++ fullDiags diagnostics messages (at + 6) k

fullAnswer : Texts → (slots : ℕ) → Ended → List ℕ
fullAnswer texts v e =
    slotRows texts (e .after .types) 0 (take (v + 1) (e .after .slots))
    ++ fnRows texts (e .after .types) (e .after .functions) (e .functionWords) (e .functionWords) 0
    ++ fullDiags (e .after .diagnostics) (e .after .messages) 0 (e .diagnostics)
    ++ line (text "counts" ∷ decimal (e .functionWords) ∷ decimal (e .typeWords) ∷ decimal (e .diagnostics) ∷ decimal (e .messageBytes) ∷ [])
    ++ line (text "end" ∷ decimal (e .diagnostics) ∷ [])

fullRows : Inputs → Ended → List ℕ
fullRows i e =
    elim (eqb (e .number) 0) [
      | true ↦ fullAnswer (record { script = i .script; library = i .libraryText }) (slotCount (i .image)) e
      | false ↦ line (text "refused" ∷ decimal (e .number) ∷ decimal (e .place) ∷ [])
    ]

-- one of refusals 2 to 5
refuses : Option Refusal → Bool
refuses none = false
refuses (some r) = leb 2 (r .number) && leb (r .number) 5
"""
# what a theorem unfolds: these unfold all that they rest on
OPEN = "checkRun rowsRun refusalRun primaryRow fullDiags fullAnswer fullRows refuses"


def numbers(values):
    """A list of numbers in antt, runs of eight or more alike shortened."""
    pieces, k = [], 0
    values = list(values)
    while k < len(values):
        n = 1
        while k + n < len(values) and values[k + n] == values[k]:
            n += 1
        if n < 8:
            if pieces and pieces[-1][0] == "∷":
                pieces[-1][1].extend([values[k]] * n)
            else:
                pieces.append(("∷", [values[k]] * n))
        else:
            pieces.append(("++", (n, values[k])))
        k += n
    text = "[]"
    for kind, what in reversed(pieces):
        if kind == "∷":
            text = "(" + "".join("%d ∷ " % v for v in what) + text + ")"
        else:
            text = "(replicate %d %d ++ %s)" % (what[0], what[1], text) if text != "[]" else "(replicate %d %d)" % what
    return text


def inputs(parts):
    return "record { script = %s; image = %s; libraryText = %s; library = %s }" % (
        numbers(parts.script), numbers(parts.image), numbers(parts.text), numbers(parts.library))


def buffers(lists):
    """Six lists: slots, functions, types, diagnostics, messages, scratch."""
    return "record { slots = %s; functions = %s; types = %s; diagnostics = %s; messages = %s; scratch = %s }" % tuple(numbers(b) for b in lists)


def theorem(name, left, right):
    return "\n%s : %s ≡ %s\nunfolding %s\n%s = refl\n" % (name, left, right, OPEN, name)


def declarations(source):
    """A source file without its functions: `mod` lines, constants, and the types that it declares."""
    out, skipping = [], False
    for line in source.split("\n"):
        if skipping:
            skipping = line != "}"
            continue
        if re.match(r"(pub )?(ghost )?(extern .*)?fn |impl\b", line):
            skipping = not (line.endswith("}") and line.count("{") == line.count("}"))
            continue
        if line.startswith("ghost use ") or line.startswith("#["):
            continue
        use = re.match(r"((?:pub )?use )(.*::)(\{.*\}|\w+);$", line)
        if use:
            # functions are gone: only types can be used
            names = [n.strip() for n in use.group(3).strip("{}").split(",")]
            names = [n for n in names if n[:1].isupper()]
            line = "%s%s{%s};" % (use.group(1), use.group(2), ", ".join(names)) if names else ""
        out.append(line)
    return "\n".join(out)


def cited(text):
    """The files of specs/ that a file cites: (crate, words of the path)."""
    return {(crate, tuple(path.split("."))) for crate, path in re.findall(r"Rattle·(\w+)(?:·specs)?\.specs\.([\w.]+)", text)}


def reached(repo):
    """{crate: [files of specs/, without .antt]} of what TOPS rest on."""
    found, todo = {}, [(crate, (file,)) for crate, file in TOPS]
    while todo:
        crate, path = todo.pop()
        # a path may go on into the file: to a name of it
        for size in range(len(path), 0, -1):
            file = "/".join(path[:size])
            whole = os.path.join(repo, "crates", crate, "specs", file + ".antt")
            if os.path.isfile(whole):
                if file not in found.setdefault(crate, []):
                    found[crate].append(file)
                    with open(whole, encoding="utf-8") as f:
                        todo += cited(f.read())
                break
    return found


def read_crates(repo):
    needs = {}
    with open(os.path.join(repo, "crates.txt"), encoding="utf-8") as f:
        for line in f:
            line = line.split("#")[0]
            if ":" in line:
                name, deps = line.split(":")
                needs[name.strip()] = deps.split()
    return needs


class Failed(Exception):
    """`rt check` failed, and not at a theorem."""


def past_limit(why):
    """Whether antt stopped before it could tell: neither agreed nor refuted."""
    return "stopped at the step limit" in why


class Definitions:
    """A temporary repository: the definitions of `repo`, and a crate `cases` for theorems."""

    def __init__(self, repo, work=None):
        self.repo = os.path.abspath(repo)
        # definitions that an edit adds, and that theorems unfold too: (crate, file, name)
        self.opens = ()
        self.work = work or tempfile.mkdtemp(prefix="definitions-")
        self.kept = work is not None
        shutil.rmtree(self.work, ignore_errors=True)
        needs, files = read_crates(self.repo), reached(self.repo)
        self.crates = [name for name in needs if name in files]
        for name in self.crates:
            self.copy(name, files[name])
        lines = ["%s: %s" % (n, " ".join(d for d in needs[n] if d in files)) for n in self.crates]
        lines.append("cases: " + " ".join(self.crates))
        self.write("crates.txt", "\n".join(lines) + "\n")
        self.write("crates/cases/src/lib.rt", "// Cases, computed.\n")

    def write(self, path, text):
        path = os.path.join(self.work, path)
        os.makedirs(os.path.dirname(path), exist_ok=True)
        with open(path, "w", encoding="utf-8") as f:
            f.write(text)

    def copy(self, name, files):
        source = os.path.join(self.repo, "crates", name)
        for file in files:
            if "/" in file:
                raise Failed("%s: a definition in a folder of specs/: %s" % (name, file))
            with open(os.path.join(source, "specs", file + ".antt"), encoding="utf-8") as f:
                self.write(os.path.join("crates", name, "specs", file + ".antt"), f.read())
        self.write(os.path.join("crates", name, "specs", "Lib.antt"), "".join("pub mod %s\n" % file for file in files))
        for folder, _, sources in os.walk(os.path.join(source, "src")):
            for file in sources:
                path = os.path.join(folder, file)
                with open(path, encoding="utf-8") as f:
                    self.write(os.path.join("crates", name, os.path.relpath(path, source)), declarations(f.read()))

    def path(self, file):
        return os.path.join(self.work, "crates", file)

    def edit(self, file, old, new):
        """Puts `new` for `old`, which must stand in the file once. Returns what undoes it."""
        with open(self.path(file), encoding="utf-8") as f:
            before = f.read()
        if before.count(old) != 1:
            raise Failed("%s has %d times: %s" % (file, before.count(old), old))
        with open(self.path(file), "w", encoding="utf-8") as f:
            f.write(before.replace(old, new))

        def undo():
            with open(self.path(file), "w", encoding="utf-8") as f:
                f.write(before)
        return undo

    def rt(self, *words):
        env = dict(os.environ, RT_JOBS="1", RT_CUT="4000")
        run = subprocess.run(["rt"] + list(words), cwd=self.work, env=env, stdout=subprocess.PIPE, stderr=subprocess.STDOUT)
        return run.returncode, run.stdout.decode("utf-8", "replace")

    def check(self, theorems, chunk=20, at_once=200, say=None):
        """theorems: (name, text). Returns ({name: what rt says of it}, seconds)."""
        failed, began = {}, time.time()
        for first in range(0, len(theorems), at_once):
            some = theorems[first:first + at_once]
            proofs = os.path.join(self.work, "crates", "cases", "proofs")
            shutil.rmtree(proofs, ignore_errors=True)
            modules = []
            uses = "".join("use Rattle·%s.specs.%s.{%s}\n" % o for o in self.opens)
            opened = "unfolding " + " ".join([name for _, _, name in self.opens] + [OPEN])
            for k in range(0, len(some), chunk):
                modules.append("Cases%d" % (k // chunk))
                text = "".join(text for _, text in some[k:k + chunk]).replace("unfolding " + OPEN, opened)
                self.write("crates/cases/proofs/%s.antt" % modules[-1], uses + HEAD + text)
            self.write("crates/cases/proofs/Lib.antt", "".join("mod %s\n" % m for m in modules))
            code, out = self.rt("check", "cases")
            found = self.failures(out)
            if code != 0 and not (found and "cases NOT PROVED" in out) or set(found) - {name for name, _ in some}:
                raise Failed(out[-6000:])
            failed.update(found)
            if say:
                say("%d of %d, %d failed, %.0f s" % (first + len(some), len(theorems), len(failed), time.time() - began))
        return failed, time.time() - began

    @staticmethod
    def failures(out):
        failed, lines = {}, out.split("\n")
        for k, line in enumerate(lines):
            m = re.search(r"error: `([\w-]+)`:(.*)", line)
            if m:
                failed.setdefault(m.group(1), "\n".join([m.group(2).strip()] + lines[k + 1:k + 8]))
        return failed

    def remove(self):
        if not self.kept:
            shutil.rmtree(self.work, ignore_errors=True)
