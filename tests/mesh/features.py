"""What can be switched off by `--without`: groups of behaviour, each kind of request, and snoops by their opcodes."""

GROUPS = {
    "reads-once": "ReadOnce, ReadOnceCleanInvalid, ReadOnceMakeInvalid",
    "once-ack": "ReadOnce with CompAck",
    "cmo": "CleanShared, CleanSharedPersist, CleanInvalid, MakeInvalid",
    "stash": "StashOnceShared, StashOnceUnique, WriteUniqueFullStash, WriteUniquePtlStash, and stash snoops",
    "writes-unique": "WriteUniqueFull, WriteUniquePtl, and their stash kinds",
    "atomics": "AtomicStore, AtomicLoad, AtomicSwap, AtomicCompare",
    "evict": "Evict and WriteEvictFull",
    "partial": "states UCE and UDP: CleanUnique without a copy, WriteBackPtl, SnpRespDataPtl",
    "dct": "forwarding snoops, and data from a peer",
    "dmt": "data from the memory to the requester",
    "stash-states": "SnpResp_UD and SnpResp_SD as answers to SnpStashShared and SnpStashUnique, not SnpResp_I",
    "data-pull": "answers to stash snoops with DataPull",
    "memory": "flits between home and memory",
    "device": "ReadNoSnp, WriteNoSnpFull and WriteNoSnpPtl to the device",
    "retry": "RetryAck, PCrdGrant, requests sent again",
    "cancel": "PCrdReturn of a copy-back whose copy is lost",
    "cancel-others": "PCrdReturn of reads and other requests that aren't wanted any more",
    "dvm": "DVMOp and SnpDVMOp",
    "prefetch": "PrefetchTgt",
    "link-credits": "link credit returns",
    "beats": "data in more than one flit",
    "order": "beats in any order",
    "cut-through": "a home passes beats of an answer on before it has all of them",
    "receipts": "ReadReceipt: ordered reads of requesters without a cache and of homes",
    "comp-apart": "Comp and DBIDResp apart",
    "write-cancel": "WriteDataCancel",
    "write-ack": "WriteUnique with CompAck",
    "rni": "traffic of the requesters without a cache",
    "overlap": "two requests of one requester without a cache to one line",
    "imprecise": "snoop filters that name agents which have no copy",
    "back-invalidate": "snoops of the home's own, as its snoop filter is full",
    "system-cache": "data kept at the home",
    "local-sharing": "UC to SC and UD to SD by the cache itself",
    "silent-drop": "clean copies dropped without Evict",
    "clean-data": "clean copies answer snoops with data",
    "dirty-pass": "the home passes the duty to write dirty data on",
    "shared-snoops": "reads for which the home snoops a sharer it needn't",
    "stronger-snoops": "reads for which the home takes copies away that it could leave shared",
    "other-snoops": "a snoop of another kind that fits the read, as SnpClean for ReadShared",
    "snoop-ids": "a TxnID of its own for each snoop of a group",
    "discard": "MakeInvalid and ReadOnceMakeInvalid lose dirty data",
    "sole-shared": "SC for a reader though nobody else has a copy",
}
# Behaviour that is switched on by `--also`, as it isn't sure that Issue B has it.
DOUBTFUL = {
    "late-answer": "a cache that has answered a snoop within sends the line's next request before the answer is on its port",
}
MEMBERS = {
    "reads-once": ("ReadOnce", "ReadOnceCleanInvalid", "ReadOnceMakeInvalid"),
    "cmo": ("CleanShared", "CleanSharedPersist", "CleanInvalid", "MakeInvalid"),
    "stash": ("StashOnceShared", "StashOnceUnique", "WriteUniqueFullStash", "WriteUniquePtlStash", "data-pull"),
    "writes-unique": ("WriteUniqueFull", "WriteUniquePtl", "WriteUniqueFullStash", "WriteUniquePtlStash"),
    "atomics": ("AtomicStore", "AtomicLoad", "AtomicSwap", "AtomicCompare"),
    "evict": ("Evict", "WriteEvictFull"),
    "partial": ("WriteBackPtl",),
    "memory": ("dmt",),
    "device": ("ReadNoSnp", "WriteNoSnpFull", "WriteNoSnpPtl"),
    "dvm": ("DVMOp",),
    "prefetch": ("PrefetchTgt",),
}
OPCODES = ("ReadNotSharedDirty", "ReadShared", "ReadClean", "ReadUnique", "ReadOnce", "ReadOnceCleanInvalid",
           "ReadOnceMakeInvalid", "CleanUnique", "MakeUnique", "CleanShared", "CleanSharedPersist", "CleanInvalid",
           "MakeInvalid", "Evict", "StashOnceShared", "StashOnceUnique", "WriteBackFull", "WriteBackPtl", "WriteCleanFull",
           "WriteEvictFull", "WriteUniqueFull", "WriteUniquePtl", "WriteUniqueFullStash", "WriteUniquePtlStash",
           "AtomicStore", "AtomicLoad", "AtomicSwap", "AtomicCompare", "ReadNoSnp", "WriteNoSnpFull", "WriteNoSnpPtl", "DVMOp",
           "PrefetchTgt")
SNOOPS = ("SnpOnceFwd", "SnpCleanFwd", "SnpSharedFwd", "SnpNotSharedDirtyFwd", "SnpUniqueFwd", "SnpCleanInvalid",
          "SnpMakeInvalid", "SnpUniqueStash", "SnpMakeInvalidStash", "SnpStashShared", "SnpStashUnique")


def expanded(names):
    """The features that are off where those are, or the name of one that isn't any."""
    off = set()
    for name in names:
        if name not in GROUPS and name not in OPCODES and name not in SNOOPS:
            raise ValueError(name)
        off.add(name)
        off.update(MEMBERS.get(name, ()))
    return off


def listing():
    """The features, a line each."""
    lines = [f"{name:16} {text}" for name, text in (GROUPS | DOUBTFUL).items()]
    return "\n".join(lines + ["or a kind of request of requesters: " + ", ".join(OPCODES), "or a snoop: " + ", ".join(SNOOPS)])
