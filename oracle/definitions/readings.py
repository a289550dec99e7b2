"""Wrong readings of document 01: edits of the definitions, and the stored cases that are to catch each. Run by wrong_readings.py."""
from make_cases import number


def rows(name, *cases):
    return [("rows", name, number(name, c) if isinstance(c, str) else c) for c in cases]


def kept(name, *cases):
    """Whole buffers."""
    return [("buffers", name, number(name, c) if isinstance(c, str) else c) for c in cases]


def refused(*cases):
    return [("answers", "limits", c) for c in cases]


def by(*cases):
    """Rows of cases by hand."""
    return rows("handmade", *cases)


READINGS = []


def reading(label, file, old, new, caught, *more, opens=()):
    """More edits of the same reading: file, old, new. `opens`: definitions that it adds, to be unfolded (crate, file, name)."""
    edits = [(file, old, new)] + [more[i:i + 3] for i in range(0, len(more), 3)]
    READINGS.append((label, edits, caught, opens))


# Document 01's three

reading("a poisoned array member ends the visits", "rules/specs/Rules.antt",
        "goOn silent poisoned rest = rest true", "goOn silent poisoned rest = return Poison", by("poisoned member"))
reading("a cast to the same type poisons", "rules/specs/Operators.antt",
        "(report n (redundantCast token it) >> setKnown slot to)", "(poison n (redundantCast token it))", by("same cast"))
reading("record fields compare in any order", "ptype/specs/Ty.antt",
        "  sameFields noField (field m u gs) = false\n  sameFields (field n t fs) noField = false\n"
        "  sameFields (field n t fs) (field m u gs) = sameBytes n m && (sameTy t u && sameFields fs gs)\n",
        "  sameFields noField (field m u gs) = true\n"
        "  sameFields (field n t fs) gs = sameTy t (fieldNamed n gs) && sameFields fs gs\n", by("field order"),
        "ptype/specs/Ty.antt", "unfoldable mutual\n  pub sameTy :",
        "unfoldable pub fieldNamed : List ℕ → Fields → Ty\nfieldNamed n noField = plain 0\n"
        "fieldNamed n (field m u gs) = elim (sameBytes n m) [ true ↦ u | false ↦ fieldNamed n gs ]\n\n"
        "unfoldable mutual\n  pub sameTy :", opens=[("ptype", "Ty", "fieldNamed")])

# Types

reading("a record's field names do not count in equality", "ptype/specs/Ty.antt",
        "= sameBytes n m && (sameTy t u && sameFields fs gs)", "= sameTy t u && sameFields fs gs", by("field names"))
reading("Unknown is seen at the top of a type only", "ptype/specs/Ty.antt",
        "containsUnknown (rec fs) = anyUnknown fs", "containsUnknown (rec fs) = false", by("unknown inside"))
reading("type depth 33 is allowed", "ptype/specs/Add.antt", "(append b new .words) word)) 32)", "(append b new .words) word)) 33)", kept("depths", 10))
reading("7 at exactly full", "ptype/specs/Add.antt", "when (leb (b .used + length new) (typeRoom b))",
        "when (leb (b .used + length new + 1) (typeRoom b))", kept("handmade", "values order"))
reading("8 before 7 in one step", "ptype/specs/Add.antt", "(refuse (refusal 7 n))", "(refuse (refusal 8 n))", kept("handmade", "values order"))
reading("a conflict undoes what its argument bound before", "ptype/specs/Slots.antt",
        "[ true ↦ bindFields texts types fs (payloadOf w + 1) (fieldCount types w) bs | false ↦ allBound bs ]",
        "[ true ↦ elim (bindFields texts types fs (payloadOf w + 1) (fieldCount types w) bs) "
        "[ allBound more ↦ allBound more | conflict more s e n ↦ conflict bs s e n | voidSlot more s ↦ voidSlot bs s ] | false ↦ allBound bs ]",
        by("conflict keeps bindings"))
reading("a slot is bound to Void", "ptype/specs/Slots.antt", "bindOne texts types s a bs = elim (eqb (kindOf a) 1)",
        "bindOne texts types s a bs = elim (eqb (kindOf a) 0)", by("void in a slot"))
reading("a bound slot against Void is a conflict", "ptype/specs/Slots.antt", "[ true ↦ voidSlot bs s | false ↦ bindFound",
        "[ true ↦ elim (boundTo s bs) [ none ↦ voidSlot bs s | some e ↦ conflict bs s e a ] | false ↦ bindFound", by("void in a slot"))
reading("the later binding of a slot wins", "ptype/specs/Slots.antt",
        "[ true ↦ allBound bs | false ↦ conflict bs s e a ]", "[ true ↦ allBound bs | false ↦ allBound (binding s a ∷ bs) ]",
        by("conflict keeps bindings"))
reading("fields are applied last first", "ptype/specs/Slots.antt",
        "    new ← applySlotBinding texts n bs t (getD (b .words) (at + 1) 0)\n    rest ← applyFields texts n bs fs (at + 2)\n",
        "    rest ← applyFields texts n bs fs (at + 2)\n    new ← applySlotBinding texts n bs t (getD (b .words) (at + 1) 0)\n",
        kept("handmade", "fields applied in order"))
reading("every compound type with a slot is built anew, bound or not", "ptype/specs/Slots.antt",
        "      when (hasBoundSlot bs t)\n", "      when (true || hasBoundSlot bs t)\n", by("unbound slots"))
reading("fields are shown with a comma", "ptype/specs/Show.antt", 'gap (field n t fs) = text " "', 'gap (field n t fs) = text ", "', by("field order"))

# Names and words

reading("bits 25 to 27 of a name are not asked", "tok/specs/Name.antt", "eqb (nameRest w) 0 && ", "", refused(390, 303))
reading("a name need not be well-formed UTF-8", "tok/specs/Name.antt", "liesIn text w && readsWell text w", "liesIn text w", refused(932, 933))
reading("an empty name may stand past the text's end", "tok/specs/Name.antt", "leb (nameStart w + nameLength w) (length text)",
        "(leb (nameStart w + nameLength w) (length text) || eqb (nameLength w) 0)", refused(901),
        "tok/specs/Name.antt", "use mathlib.Core.Bool.{Bool, _&&_}", "use mathlib.Core.Bool.{Bool, _&&_, _||_}")
reading("8,193 words are allowed", "tok/specs/Reader.antt", "mostWords = 8192", "mostWords = 8193", refused(5, 526))
reading("8,192 words are too many", "tok/specs/Reader.antt", "mostWords = 8192", "mostWords = 8191", refused(18, 533))
reading("what a count owes is not foreseen", "tok/specs/Reader.antt", "(rule w && leb (least + owes w) mostWords)", "rule w", refused(3, 5, 505))
reading("a text of 65,537 bytes is allowed", "tok/specs/Reader.antt", "mostBytes = 65536", "mostBytes = 65537", refused(896, 898))
reading("words after the end are passed over", "tok/specs/Reader.antt", "endsAt at c (w ∷ rest) = refused at", "endsAt at c (w ∷ rest) = ok tt c",
        refused(17, 500))

# The library

reading("the last library package of a name is found", "library/specs/Package.antt",
        "    pkg (getD library at 0) (functionsFrom library (at + 2) (getD library (at + 1) 0))\n"
        "    ∷ packagesFrom library (functionsEnd library (at + 2) (getD library (at + 1) 0)) k\n",
        "    packagesFrom library (functionsEnd library (at + 2) (getD library (at + 1) 0)) k\n"
        "    ++ (pkg (getD library at 0) (functionsFrom library (at + 2) (getD library (at + 1) 0)) ∷ [])\n",
        by("first package"), "library/specs/Package.antt", "use mathlib.Core.List.{List, [], _∷_}", "use mathlib.Core.List.{List, [], _∷_, _++_}")
reading("a group of several may have flag 1 (the second)", "library/specs/PackageRecords.antt",
        "(eqb flag 0 || not (some (sameGroup (p .texts) group) before))", "true", refused(486))
reading("a group of several may have flag 1 (the first)", "library/specs/PackageRecords.antt",
        "goodName inLibrary (p .texts .library) group && not (some (λ f. sameGroup (p .texts) group f && f .sig .withSlots) before)",
        "goodName inLibrary (p .texts .library) group", refused(487))
reading("a slot of the return type may stand in no argument", "library/specs/PackageRecords.antt",
        "goodSignatureType p flag w && returnStands p (map (λ a. a .type) args) w", "goodSignatureType p flag w", refused(493, 495))
reading("slots may stand under flag 0", "library/specs/PackageRecords.antt",
        "goodType p (p .size) w && (eqb flag 1 || noSlot p w)", "goodType p (p .size) w", refused(490, 491))
reading("Unknown is allowed in the library", "library/specs/Pool.antt", "goodPlain w = range 1 5 (kindOf w)",
        "goodPlain w = (range 1 5 (kindOf w) || eqb (kindOf w) 11)", refused(29, 340))
reading("a Record's list may reach past it", "library/specs/Pool.antt",
        "    && leb (payloadOf w + 1 + 2 * payloadOf (poolWord p (payloadOf w))) own))", "    && true))", refused(25))
reading("a word may refer to itself", "library/specs/Pool.antt",
        "(ltb (payloadOf w) own && range 1 10 (kindOf (poolWord p (payloadOf w))))",
        "(leb (payloadOf w) own && range 1 10 (kindOf (poolWord p (payloadOf w))))", refused(28))

# The image

reading("parts of nodes may be claimed twice: only roots are asked", "ast/specs/Claims.antt",
        "twice claimed (o .parts) || twice owned (slotsOwned o)", "twice owned (slotsOwned o)", refused(862, 863))
reading("slots may be owned twice", "ast/specs/Claims.antt", "twice claimed (o .parts) || twice owned (slotsOwned o)", "twice claimed (o .parts)",
        refused(873, 874))
reading("an Fn does not own its arguments' slots", "ast/specs/Claims.antt", "countFrom (o .slot) (o .arguments + 1)", "countFrom (o .slot) 1", refused(874))
reading("a root may be a part", "ast/specs/Claims.antt", "elim (twice claimed roots)", "elim (twice [] roots)", refused(865))
reading("node depth is counted from 0", "ast/specs/Depth.antt", "ltb 64 (1 + deepest depths (o .parts))", "ltb 64 (deepest depths (o .parts))", refused(880))
reading("a call's target does not count in depth", "ast/specs/Depth.antt",
        "depthFrom depths i (o ∷ os) =\n    elim (ltb 64 (1 + deepest depths (o .parts)))",
        "depthFrom depths i (o ∷ os) =\n    elim (ltb 64 (1 + deepest depths (cond (eqb (o .kind) 7) (drop 1 (o .parts)) (o .parts))))", refused(882),
        "ast/specs/Depth.antt", "(depths ++ ((1 + deepest depths (o .parts)) ∷ []))",
        "(depths ++ ((1 + deepest depths (cond (eqb (o .kind) 7) (drop 1 (o .parts)) (o .parts))) ∷ []))",
        "ast/specs/Depth.antt", "use mathlib.Core.Bool.{true, false}", "use mathlib.Core.Bool.{true, false, cond}",
        "ast/specs/Depth.antt", "use lib.ListN.{getD}\nuse lib.Dec.{ltb}", "use lib.ListN.{getD, drop}\nuse lib.Dec.{ltb, eqb}")
reading("a part may be its owner", "ast/specs/Outline.antt", "part h = below (h .number)", "part h = below (h .number + 1)", refused(536),
        "ast/specs/Outline.antt", "use Prim.Native.Nat.{ℕ}", "use Prim.Native.Nat.{ℕ, _+_}")
reading("an Fn's argument slots may pass V", "ast/specs/NodeRecords.antt",
        "leb (2 * n) (h .left - 3) && ltb (h .slot + n) (h .counts .slots)", "leb (2 * n) (h .left - 3)", refused(538))
reading("a call's target may be any node", "ast/specs/NodeRecords.antt", "ltb p (h .number) && callable (getD (h .before) p noNode)", "ltb p (h .number)",
        [("answers", "boundary", 4205)])
reading("slots need V words only", "ast/specs/Room.antt", "ltb slots (v + 1)", "ltb slots v", refused(885, 889))
reading("an Fn's entry needs 2 + 2 × arguments words", "ast/specs/Room.antt", "(3 + 2 * o .arguments)", "(2 + 2 * o .arguments)", refused(886))
reading("the span of a Bin is its operator's", "ast/specs/Span.antt",
        "spanOf (Bin n slot token op l r) = coverSpans (spanOf l) (tokenSpan token ∷ spanOf r ∷ [])",
        "spanOf (Bin n slot token op l r) = tokenSpan token", by("span of a member"))
reading("the span of a Call leaves out its target", "ast/specs/Span.antt",
        "spanOf (Call n slot target args) = coverSpans (spanOf target) (spansOf args)",
        "spanOf (Call n slot target args) = coverSpans (tokenSpan 0) (spansOf args)", by("span of an argument"))
reading("cover_spans ends with the last part", "tok/specs/Span.antt", "max (endOf s) (greatestEnd t ts)", "greatestEnd t ts", rows("readings", 0))
reading("cover_spans starts with the first part", "tok/specs/Span.antt", "min (s .start) (leastStart t ts)", "s .start", by("span of an argument"))
reading("the order of refusals: 5 before 4", "refusals/specs/Refusals.antt",
        "    orElse 4 (claimsFault (o .roots) (o .nodes))\n    (orElse 5 (depthFault (o .nodes))\n",
        "    orElse 5 (depthFault (o .nodes))\n    (orElse 4 (claimsFault (o .roots) (o .nodes))\n", refused(883))
reading("scratch of 16,383 words is enough", "refusals/specs/Refusals.antt", "scratchWords = 16384", "scratchWords = 16383", refused(887, 891))

# Messages

reading("the length of a message holds its primary message", "rules/specs/Steps.antt",
        "length (d .message) ∷ length (d .primary) ∷ []", "length (d .message ++ d .primary) ∷ length (d .primary) ∷ []", by("poisoned member"))
reading("a primary message is not counted", "rules/specs/Steps.antt",
        "length (d .message) ∷ length (d .primary) ∷ []", "length (d .message) ∷ 0 ∷ []", by("poisoned member"))
reading("operators are shown without quotes", "err/specs/Message.antt",
        'quoted op = text "\\"" ++ getD operators op [] ++ text "\\""', "quoted op = getD operators op []", by("operators"))
reading("< and > want what == wants", "err/specs/Message.antt",
        "[] ∷ text \", want both sides Int\" ∷ text \", want both sides Int, Bool or Str\" ∷ [] ∷ []",
        "[] ∷ text \", want both sides Int\" ∷ text \", want both sides Int, Bool or Str\" ∷ text \", want both sides Int, Bool or Str\" ∷ []", by("operators"))
reading("code 9 stands at the function's name", "rules/specs/Rules.antt", "badReturn (typeToken retExpr)", "badReturn name", by("span of a return"))
reading("code 20 stands at the start of its argument only", "rules/specs/Calls.antt", "span = spanOf x }",
        "span = record { start = (spanOf x) .start; len = 1 } }", by("span of an argument"))
reading("code 2 stands at the start of its member only", "rules/specs/Rules.antt",
        "member c n (spanOf x) first a", "member c n (record { start = (spanOf x) .start; len = 1 }) first a", by("span of a member"))

# The walk

reading("Import of a held package replaces it", "rules/specs/Rules.antt",
        "      (λ _. skip)\n", "      (λ _. onOption (findPackage (c .texts) (nameIn c path) (c .library)) skip hold)\n", by("held import"))
reading("a path not found ends the Import", "rules/specs/Rules.antt",
        "importAll c n token (p ∷ ps) = do\n  _ ← forEach (λ path. importOne c n path) (p ∷ ps)\n  skip\n",
        "importAll c n token (p ∷ ps) = onOption (findPackage (c .texts) (nameIn c p) (c .library)) (importOne c n p) "
        "(λ _. forEach (λ path. importOne c n path) (p ∷ ps) >> skip)\n", by("paths not found"))
reading("an Extern is added to a held package", "rules/specs/Rules.antt",
        "    hold (pkg name fs)\n",
        "    s ← look\n    onOption (findPackage (c .texts) (nameIn c name) (s .packages)) (hold (pkg name fs)) (λ p. hold (pkg name (p .functions ++ fs)))\n",
        by("extern replaces", "extern twice"),
        "rules/specs/Rules.antt", "use mathlib.Core.List.{List, [], _∷_}", "use mathlib.Core.List.{List, [], _∷_, _++_}")
reading("a let of Void binds Void", "rules/specs/Rules.antt", "        report n (letVoid name)\n        return none)",
        "        report n (letVoid name)\n        return (some w))", by("let after poison"))
reading("a poisoned let does not bind its name", "rules/specs/Rules.antt", "    envInsert name binding\n    setKnown slot voidWord",
        "    onOption binding skip (λ w. envInsert name (some w))\n    setKnown slot voidWord", by("let after poison", "poison hides"))
reading("a let's own type is its right side's", "rules/specs/Rules.antt", "    envInsert name binding\n    setKnown slot voidWord",
        "    envInsert name binding\n    onOption binding (return Poison) (λ w. setKnown slot w)", by("same cast"))
reading("a function body sees the bindings around it", "rules/specs/Steps.antt", "  _ ← give s (withEnv s [])\n", "", by("body sees arguments only"))
reading("a block has no frame of its own", "rules/specs/Rules.antt", "  block c (then x xs) = framed (do\n    a ← node c x\n    last c a xs)",
        "  block c (then x xs) = do\n    a ← node c x\n    last c a xs", by("frames"))
reading("an own function is looked up before its arguments are visited", "rules/specs/Calls.antt",
        "  _ ← visits\n  resolveCall c n slot name given",
        "  s ← look\n  onOption (findFunction (c .texts) (nameIn c name) (s .own)) (poison n (undefinedOwn name (nameIn c name)))\n"
        "      (λ _. visits >> resolveCall c n slot name given)", by("arguments before lookup"))
reading("a package is looked up before the arguments are visited", "rules/specs/Calls.antt",
        "  poisoned ← visits\n  resolvePkgCall c n slot pkg name given poisoned",
        "  s ← look\n  onOption (findPackage (c .texts) (nameIn c pkg) (s .packages)) (poison n (missingPackage pkg (nameIn c pkg)))\n"
        "      (λ _. do\n        poisoned ← visits\n        resolvePkgCall c n slot pkg name given poisoned)", by("arguments before lookup"))
reading("a call through a field visits its arguments", "rules/specs/Calls.antt",
        "given visits = poison n (callThroughField name)", "given visits = visits >> poison n (callThroughField name)", by("arguments before lookup"))
reading("a cast's type is added after its operand is visited", "rules/specs/Rules.antt",
        "    to ← typeFromExpr c n type\n    l ← node c left\n", "    l ← node c left\n    to ← typeFromExpr c n type\n",
        kept("handmade", "cast type before operand"))
reading("a redundant cast keeps its operand's word", "rules/specs/Operators.antt",
        "(report n (redundantCast token it) >> setKnown slot to)", "(report n (redundantCast token it) >> setKnown slot i)", kept("handmade", "same cast"))
reading("the types of a Record's fields are added last first", "ast/specs/TypeFrom.antt",
        "    w ← typeFrom texts n t\n    rest ← fieldsFromExprs texts n fs\n", "    rest ← fieldsFromExprs texts n fs\n    w ← typeFrom texts n t\n",
        kept("handmade", "record type order"))
reading("a function's return type is added before its arguments'", "rules/specs/Rules.antt",
        "    params ← fnArguments c n (slot + 1) args\n    ret ← typeFromExpr c n retExpr\n",
        "    ret ← typeFromExpr c n retExpr\n    params ← fnArguments c n (slot + 1) args\n", kept("handmade", "record type order"))
reading("an Extern's return type is added before its arguments'", "rules/specs/Rules.antt",
        "  params ← forEach\n      (λ a. do\n        w ← typeFromExpr c n (a .type)\n        return (param (a .name) w)) (f .args)\n  ret ← typeFromExpr c n (f .ret)\n",
        "  ret ← typeFromExpr c n (f .ret)\n  params ← forEach\n      (λ a. do\n        w ← typeFromExpr c n (a .type)\n        return (param (a .name) w)) (f .args)\n",
        kept("handmade", "extern type order"))
reading("an argument that contains a Slot is compared", "rules/specs/Calls.antt", "when (containsSlot provided) (return bs)", "when false (return bs)",
        kept("handmade", "passed over"))
reading("an argument that contains a Slot is passed over by every function", "rules/specs/Calls.antt",
        "(eqb w 0 || containsUnknown provided)", "(eqb w 0 || (containsUnknown provided || containsSlot provided))", kept("handmade", "passed over"))
reading("19 under flag 1 keeps the call known", "rules/specs/Calls.antt",
        "when (fun .withSlots) (return Poison) (setKnown slot (fun .ret))", "setKnown slot (fun .ret)", by("wrong count"))
reading("19 poisons", "rules/specs/Calls.antt", "when (fun .withSlots) (return Poison) (setKnown slot (fun .ret))", "return Poison", by("wrong count"))
reading("a wrong count is reported after the arguments are compared", "rules/specs/Calls.antt",
        "    (do\n      report n (argumentCount token callName (length (fun .params)) (length given))\n",
        "    (do\n      _ ← arguments c n callName (fun .withSlots) (fun .params) given []\n"
        "      report n (argumentCount token callName (length (fun .params)) (length given))\n", by("wrong count"))
reading("a condition that is not Bool ends the match's cases", "rules/specs/Rules.antt",
        "    condition c n token a\n    b ← block c body\n    rest ← cases c n cs\n    return (record { token = token; answer = b } ∷ rest)\n",
        "    s ← look\n    condition c n token a\n    t ← look\n    when (eqb (s .diagnostics .used) (t .diagnostics .used))\n"
        "        (do\n          b ← block c body\n          rest ← cases c n cs\n          return (record { token = token; answer = b } ∷ rest))\n"
        "        (return [])\n", by("bad conditions"))
reading("a poisoned condition leaves its body out", "rules/specs/Rules.antt", "    b ← block c body\n",
        "    b ← known a (λ _. block c body)\n", by("bad conditions"))
reading("with a poisoned default the cases are compared with the first", "rules/specs/Rules.antt",
        "matched c n slot branches default =\n    known default (λ d. do\n      compareBranches c n d branches\n      w ← ty d\n      setKnown slot w)\n",
        "matched c n slot branches (Known d) = do\n  compareBranches c n d branches\n  w ← ty d\n  setKnown slot w\n"
        "matched c n slot [] Poison = return Poison\n"
        "matched c n slot (b ∷ bs) Poison = ifKnown (b .answer) (λ d. compareBranches c n d bs) >> return Poison\n", by("poisoned default"))
reading("a function's entry is written after its body", "rules/specs/Rules.antt",
        "    enter name params ret\n    computed ← body\n    checkReturn c n name retExpr ret computed\n",
        "    computed ← body\n    enter name params ret\n    checkReturn c n name retExpr ret computed\n", by("recursion"))
reading("a function of a name already met is visited", "rules/specs/Rules.antt",
        "(λ _. poison n (definedAlready name (nameIn c name)))", "(λ _. report n (definedAlready name (nameIn c name)) >> m)", by("defined already"))
reading("the first argument of a name is seen in the body", "rules/specs/Rules.antt",
        "  envInsert (a .name) (some w)\n  params ← fnArguments c n (slot + 1) rest\n",
        "  params ← fnArguments c n (slot + 1) rest\n  envInsert (a .name) (some w)\n", by("repeated arguments"))
reading("the last field of a name is found", "rules/specs/Rules.antt",
        "[ true ↦ some (getD types (at + 1) 0) | false ↦ findField texts types name (at + 2) k ]",
        "[ true ↦ elim (findField texts types name (at + 2) k) [ none ↦ some (getD types (at + 1) 0) | some w ↦ some w ] "
        "| false ↦ findField texts types name (at + 2) k ]", by("repeated fields"))
reading("a field that is Unknown leaves its slot empty", "rules/specs/Rules.antt", "      _ ← setKnown slot unknownWord\n      return Poison",
        "      return Poison", by("unknown field"))
reading("a field that is Unknown is known", "rules/specs/Rules.antt", "      _ ← setKnown slot unknownWord\n      return Poison",
        "      setKnown slot unknownWord", by("unknown field"))
reading("a member that differs does not end the visits", "rules/specs/Rules.antt", "goOn differs poisoned rest = return Poison",
        "goOn differs poisoned rest = rest true", by("differing member ends"))
reading("a candidate of fewer arguments matches", "rules/specs/Calls.antt", "overloadMatches [] (p ∷ ps) = false", "overloadMatches [] (p ∷ ps) = true", by("groups"))
reading("18 poisons though all candidates return the same", "rules/specs/Calls.antt",
        "            report n (noSpecialisation name callName provided candidates)\n            commonReturn c slot f others)",
        "            report n (noSpecialisation name callName provided candidates)\n            return Poison)", by("groups"))
reading("a poisoned argument of a group of several poisons", "rules/specs/Calls.antt", "when poisoned (commonReturn c slot f others)",
        "when poisoned (return Poison)", by("groups"))
reading("== takes two Double", "rules/specs/Operators.antt",
        "    ∷ (0 ∷ 0 ∷ 0 ∷ 2 ∷ 0 ∷ 0 ∷ [])\n    ∷ (0 ∷ 0 ∷ 0 ∷ 0 ∷ 0 ∷ 0 ∷ [])\n    ∷ (0 ∷ 0 ∷ 0 ∷ 0 ∷ 0 ∷ 2 ∷ [])",
        "    ∷ (0 ∷ 0 ∷ 0 ∷ 2 ∷ 0 ∷ 0 ∷ [])\n    ∷ (0 ∷ 0 ∷ 0 ∷ 0 ∷ 2 ∷ 0 ∷ [])\n    ∷ (0 ∷ 0 ∷ 0 ∷ 0 ∷ 0 ∷ 2 ∷ [])", by("operators"))
reading("every operator may be unary", "rules/specs/Operators.antt", "leb op 1 && (eqb (kindOf r) 3", "leb op 8 && (eqb (kindOf r) 3", by("unary"))
reading("Bool is cast to Double", "rules/specs/Operators.antt", "castable f t = ", "castable f t = (eqb f 2 && eqb t 4) || ", by("casts"))
reading("a poisoned left operand ends a Bin", "rules/specs/Rules.antt",
        "    r ← node c right\n    known l (λ ls. known r (λ rs. fuse c n slot token op ls rs))",
        "    known l (λ ls. do\n      r ← node c right\n      known r (λ rs. fuse c n slot token op ls rs))", by("both operands"))
reading("257 diagnostics are told", "rules/specs/Steps.antt", "/ 6) 256)", "/ 6) 257)", kept("large", "257 diagnostics"))
reading("65,537 message bytes are used", "rules/specs/Steps.antt", "(s .messages .words)) 65536)", "(s .messages .words)) 65537)",
        kept("large", "65,537 message bytes"))
reading("8,193 type words are used", "ptype/specs/Add.antt", "(length (b .words)) 8192", "(length (b .words)) 8193", kept("large", "8,193 type words"))
reading("9 at exactly full: diagnostics", "rules/specs/Steps.antt", "ltb (s .diagnostics .used) (min", "ltb (s .diagnostics .used + 1) (min",
        kept("handmade", "full at the end"))
reading("9 at exactly full: messages", "rules/specs/Steps.antt", "&& leb (s .messages .used + length (bytesOf d))", "&& ltb (s .messages .used + length (bytesOf d))",
        kept("handmade", "full at the end"))
reading("a diagnostic whose primary message has no room is told without it", "rules/specs/Steps.antt",
        "&& leb (s .messages .used + length (bytesOf d))", "&& leb (s .messages .used + length (d .message))", kept("handmade", "differing member ends"))
reading("what lies past the used part is set to zero", "rules/specs/Check.antt", "    messages = s .messages .words;\n",
        "    messages = take (s .messages .used) (s .messages .words) ++ zeros (drop (s .messages .used) (s .messages .words));\n",
        kept("handmade", "full at the end"),
        "rules/specs/Check.antt", "use lib.ListN.{length, replicate}", "use lib.ListN.{length, replicate, take, drop}",
        "rules/specs/Check.antt", "use mathlib.Core.List.{List}", "use mathlib.Core.List.{List, _++_}")
reading("scratch stays as it was", "rules/specs/Check.antt", "    messages = s .messages .words;\n    scratch = zeros (b .scratch);\n",
        "    messages = s .messages .words;\n    scratch = b .scratch;\n", kept("handmade", "full at the end"))
reading("refusals 7 to 9 leave the slots", "rules/specs/Check.antt", "  slots = zeros (b .slots);\n", "  slots = b .slots;\n", kept("handmade", "full at the end"))
reading("refusals 1 to 6 set the buffers to zero", "rules/specs/Check.antt", "unlessRefused (some r) i b = refusedWith r b",
        "unlessRefused (some r) i b = refusedWith r (zeroed b)", refused(29))
reading("only types of packages are measured", "rules/specs/Walk.antt",
        "(poolTypes (poolOf (i .library)) ++ packageTypes (packagesOf (i .library)))", "(packageTypes (packagesOf (i .library)))", kept("depths", 16))
reading("library types are measured before the pool is copied", "rules/specs/Walk.antt", "(refuse (refusal 7 n))", "(refuse (refusal 8 n))",
        kept("handmade", "pool alone"))
