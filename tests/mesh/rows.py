"""The rows of the rules for one copy of a cache line, in all of Issue B: what a cache may send from each copy and what is left, what a
completion makes of it, and its unseen steps.

A copy is a state, with a mark where the home hasn't the value:
  '  behind a dirty state: by a store, or by data that went past the home; behind I and UCE: the value was thrown away there;
  "  so too, by a store that nobody saw since words were shown.
UDP has some bytes, and they are dirty; L: the others were thrown away.
"""
from functools import lru_cache

LOST = {"I'", "UCE'", "UDPL'", 'UDPL"'}
PARTIAL = {"UDP", "UDP'", 'UDP"', "UDPL'", 'UDPL"'}         # some bytes are dirty, the rest aren't there; L: those were thrown away
FULL = {"UD", "UD'", 'UD"', "SD", "SD'", 'SD"'}             # dirty, with all bytes
DIRTY, CLEAN, NONE = FULL | PARTIAL, {"SC", "UC", "UCE", "UCE'"}, {"I", "I'"}
UNIQUE, DATA = {"UC", "UCE", "UCE'", "UD", "UD'", 'UD"'} | PARTIAL, {"SC", "UC"} | FULL
LOCAL = True                                                # a cache may share its unique copy with others of its own
SHARED_LOCALLY = {"UC": "SC", "UD": "SD", "UD'": "SD'", 'UD"': 'SD"'}
STORED = {"UC": "UD'", "UD": "UD'", "UD'": "UD'", "UCE": "UDP' UD'", "UCE'": "UDPL' UD'", "UDP": "UDP' UD'", "UDP'": "UDP' UD'", "UDPL'": "UDPL' UD'"}

# ---------------------------------------------------------------- rows of the one-copy relation
# kind: issued from; completed by (CompData forms; Comp forms; D: with a DBID); what has to come then
READ = "I I' UCE UCE'"
KINDS = {
    "ReadNotSharedDirty": (READ, "CompData_SC CompData_UC CompData_UD_PD", "ack"),
    "ReadShared": (READ, "CompData_SC CompData_UC CompData_UD_PD CompData_SD_PD", "ack"),
    "ReadClean": (READ, "CompData_SC CompData_UC", "ack"),
    "ReadUnique": (READ + " SC SD SD'", "CompData_UC CompData_UD_PD", "ack"),
    "CleanUnique": (READ + " SC SD SD'", "Comp_UC", "ack"),
    "MakeUnique": (READ + " SC SD SD'", "Comp_UC", "ack"),
    "ReadOnce": ("I I'", "CompData_I", ""),
    "ReadOnceCleanInvalid": ("I I'", "CompData_I", ""),
    "ReadOnceMakeInvalid": ("I I'", "CompData_I", ""),
    "StashOnceShared": (" ".join(sorted(DIRTY | CLEAN | NONE)), "Comp_I", ""),
    "StashOnceUnique": (" ".join(sorted(DIRTY | CLEAN | NONE)), "Comp_I", ""),
    "AtomicStore": ("I I'", "CompDBIDResp DBIDResp Comp_I", "data"),
    "AtomicLoad": ("I I'", "DBIDResp CompData_I", "data"),                 # and Swap, Compare
    "WriteUniqueFullStash": ("I I'", "CompDBIDResp DBIDResp Comp_I", "data"),
    "WriteUniquePtlStash": ("I I'", "CompDBIDResp DBIDResp Comp_I", "data"),
    "CleanSharedPersist": ("I I' SC UC", "Comp_I Comp_SC Comp_UC", ""),
    "CleanShared": ("I I' SC UC", "Comp_I Comp_SC Comp_UC", ""),
    "CleanInvalid": ("I I'", "Comp_I", ""),
    "MakeInvalid": ("I I'", "Comp_I", ""),
    "Evict": ("SC UC UCE UCE'", "Comp_I", ""),
    "WriteBackFull": ("UD UD' SD SD'", "CompDBIDResp", "data"),
    "WriteCleanFull": ("UD UD' SD SD'", "CompDBIDResp", "data"),
    "WriteEvictFull": ("UC", "CompDBIDResp", "data"),
    "WriteBackPtl": ("UDP UDP' UDPL'", "CompDBIDResp", "data"),
    "WriteUniquePtl": ("I I'", "CompDBIDResp DBIDResp Comp_I", "data"),
    "WriteUniqueFull": ("I I'", "CompDBIDResp DBIDResp Comp_I", "data"),
}
ALONE = {"ReadUnique", "CleanUnique", "MakeUnique", "CleanInvalid", "MakeInvalid", "WriteUniqueFull", "WriteUniquePtl"}
WRITES = {"WriteUniqueFull", "WriteUniquePtl", "WriteUniqueFullStash", "WriteUniquePtlStash", "AtomicStore", "AtomicLoad"}
ATOMIC, WHOLE = {"AtomicStore", "AtomicLoad"}, {"WriteUniqueFull", "WriteUniqueFullStash"}
ONCE, CLEANED = {"ReadOnce", "ReadOnceCleanInvalid", "ReadOnceMakeInvalid"}, {"CleanShared", "CleanSharedPersist"}
LOOSE = {"StashOnceShared", "StashOnceUnique"}              # such a request is no matter of its agent's copy
TIMED, PAIRED = ONCE | CLEANED, ONCE | WRITES | CLEANED | {"CleanInvalid", "MakeInvalid"}
OVERWRITES = {"MakeUnique", "MakeInvalid"} | WHOLE
COPYBACK = {"WriteBackPtl", "WriteBackFull", "WriteCleanFull", "WriteEvictFull"}

# snoop: what it may leave (NEVER data or a duty to MakeInvalid)
SHARED, NOTHING = "I SC SD", "I"
SNOOPS = {"SnpOnce": "I SC UC UD SD", "SnpCleanShared": "I SC UC", "SnpClean": SHARED, "SnpShared": SHARED,
          "SnpNotSharedDirty": SHARED, "SnpUnique": NOTHING, "SnpCleanInvalid": NOTHING, "SnpMakeInvalid": NOTHING}

STASH = {"SnpUniqueStash": "SnpUnique", "SnpMakeInvalidStash": "SnpMakeInvalid"}      # answered as
PULLS = {"SnpUniqueStash": "ReadUnique", "SnpMakeInvalidStash": "ReadUnique", "SnpStashUnique": "ReadUnique",
         "SnpStashShared": "ReadNotSharedDirty"}            # what an answer with DataPull asks for

# answer: from -> to, per RESP; behind data the home has the value, so ' is gone. D_U, R_U: the encoding 010
ANSWERS = {
    "R_I": {"I": "I", "I'": "I'", "SC": "I", "UC": "I", "UCE": "I", "UCE'": "I'"},
    "R_SC": {"SC": "SC", "UC": "SC"},
    "R_UC": {"UC": "UC", "UCE": "UCE", "UCE'": "UCE'"},
    "D_I": {"SC": "I", "UC": "I"},
    "D_SC": {"SC": "SC", "UC": "SC"},
    "D_UC": {"UC": "UC"},
    "D_UD": {"UD": "UD", "UD'": "UD"},
    "D_SD": {s: "SD" for s in FULL},
    "D_I_PD": {s: "I" for s in FULL},
    "D_SC_PD": {s: "SC" for s in FULL},
    "P_I_PD": {"UDP": "I", "UDP'": "I", "UDPL'": "I'"},     # SnpRespDataPtl
    "P_UD": {"UDP": "UDP", "UDP'": "UDP", "UDPL'": "UDPL'"},
    "D_UC_PD": {"UD": "UC", "UD'": "UC"},
}
THROWN = dict(ANSWERS["R_I"], UD="I", SD="I", UDP="I", **{"UD'": "I'", "SD'": "I'", "UDP'": "I'", "UDPL'": "I'"})     # R_I to SnpMakeInvalid
STASHED = {"R_I": {s: s for s in DIRTY | CLEAN | NONE}, "R_SC": {"SC": "SC"}, "R_UC": {s: s for s in ("UC", "UCE", "UCE'")},
           "R_UD": {s: s for s in ("UD", "UD'", "UDP", "UDP'", "UDPL'")}, "R_SD": {s: s for s in ("SD", "SD'")}}     # SnpStash*: the copy stays
LEFT = {a: a.split("_")[1] for a in ANSWERS}

# write data of a copy-back: from -> to in WriteCleanFull (others leave I)
WRITTEN = {"I": {"I": "I", "I'": "I'", "SC": "I", "UC": "I", "UCE": "I", "UCE'": "I'"}, "SC": {"SC": "SC"}, "UC": {"UC": "UC"},
           "UD_PD": {"UD": "UC", "UD'": "UC"}, "SD_PD": {"SD": "SC", "SD'": "SC"},
           "PTL": {"UDP": "I", "UDP'": "I", "UDPL'": "I'"}}

UPGRADED = {"I": "UCE", "I'": "UCE'", "SC": "UC", "SD": "UD", "SD'": "UD'"}          # Comp_UC of CleanUnique

# forwarding snoop: its plain form, the kind it serves; from: {form of CompData: what is left (_PD: with data to the home)}
SHARE = {"SC": {"SC": "I SC"}, "UC": {"SC": "I SC"}, "UD": {"SC": "SD I_PD SC_PD"}, "SD": {"SC": "SD I_PD SC_PD"}}
FORWARDS = {
    "SnpNotSharedDirtyFwd": ("SnpNotSharedDirty", "ReadNotSharedDirty", SHARE),
    "SnpCleanFwd": ("SnpClean", "ReadClean", SHARE),
    "SnpSharedFwd": ("SnpShared", "ReadShared", {**SHARE, "UD": {"SC": "SD I_PD SC_PD", "SD_PD": "I SC"},
                                                 "SD": {"SC": "SD I_PD SC_PD", "SD_PD": "I SC"}}),
    "SnpUniqueFwd": ("SnpUnique", "ReadUnique", {"SC": {"UC": "I"}, "UC": {"UC": "I"}, "UD": {"UD_PD": "I"}, "SD": {"UD_PD": "I"}}),
    "SnpOnceFwd": ("SnpOnce", "ReadOnce", {"SC": {"I": "I SC"}, "UC": {"I": "I SC UC"}, "UD": {"I": "UD SD I_PD SC_PD UC_PD"},
                                           "SD": {"I": "SD I_PD SC_PD"}}),
}


def serves(snoop, kind):
    """Whether a request of the kind may get whatever such a forwarding snoop gives."""
    _, own, table = FORWARDS[snoop]
    if own in ONCE or kind in ONCE:
        return own in ONCE and kind in ONCE
    return all("CompData_" + form in KINDS[kind][1].split() for forms in table.values() for form in forms)


def is_new(c):
    return c[-1] in "'\""


def row(c):
    """The rows have one mark: what is new by a store that nobody saw is as by another."""
    return c.replace('"', "'")


def unseen(c):
    return c.replace("'", '"')


def base(c):
    return c.rstrip("'\"")


def drop(c):
    return "I'" if is_new(c) else "I"


def compatible(a, b):
    return a in NONE or b in NONE or {base(a), base(b)} in ({"SC"}, {"SC", "SD"})


# ---------------------------------------------------------------- words

def fits(known, words):
    """None: any. Below 0: a name of what no flit has shown; the same name, the same byte."""
    return all(k is None or k < 0 or w is None or k == w for k, w in zip(known, words))


def names(known, words):
    return {k: w for k, w in zip(known, words) if k is not None and k < 0 and w is not None}


def learn(known, words):
    return tuple(k if w is None else w for k, w in zip(known, words))


def join(*all_):
    return tuple(a if all(b == a for b in t) else None for a, *t in zip(*all_)) if all_ else ()


class Fault(Exception):
    pass


def need(ok, why):
    if not ok:
        raise Fault(why)


# ---------------------------------------------------------------- hidden steps of one cache

@lru_cache(None)
def closure(copies, open_, hidden, partial, full):
    """Stores, drops and cancels that nobody saw; and whether there may have been a store. open_: (slot, phase) ..."""
    out, todo, stored = set(copies), list(copies), False
    while todo:
        c, can = todo.pop()
        new = [(c, can | {s}) for s, phase in open_ if phase == "retried" and s not in can]
        if all(s in can for s, _ in open_):
            if c in CLEAN:
                new.append((drop(c), can))
            if LOCAL and c in SHARED_LOCALLY:
                new.append((SHARED_LOCALLY[c], can))
            if hidden and c in UNIQUE:
                new += [(unseen(x), can) for x in STORED[row(c)].split() if partial or x == "UD'"]
                stored = True
            if full and c in PARTIAL:       # each byte is there
                new.append(({"UDP": "UD", 'UDP"': 'UD"', 'UDPL"': 'UD"'}.get(c, "UD'"), can))
        todo += [h for h in new if h not in out]
        out.update(new)
    return frozenset(out), stored
