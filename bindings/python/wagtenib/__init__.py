"""Proved functions for Certificate Transparency logs: those of libwagtenib, as values of Python.

Each function says in include/wagtenib.h what it does. It returns a value, or raises Error, whose `name` is that of the fault there.
"""

from ._certificates import Promise, check_promise, precertificate_entry, promised_leaf
from ._data_tiles import TileEntry, compare_data_tile, data_tile_leaves
from ._errors import CertificateError, Code, Error, Field, TileError
from ._guard import TreeHead, guard_first_head, guard_head, guard_receipt, guard_receipts, guard_state
from ._library import Unavailable
from ._monitor import EntryReport, Judgement, Verdict, compare_heads, monitor_begin, monitor_entries, monitor_entry, monitor_head, monitor_older, monitor_proof, monitor_start
from ._names import Name, NameKind, Place, certificate_names, names_in_bytes, watch_list, watched_names
from ._node import NodeCommand, NodeDoes, NodeFound, NodeOutcome, NodeState, NodeTold, batch_name, batch_state, lock_state, lock_text, node_accept, node_next, node_start
from ._step import Object, Published, Receipt, Step, Submission, step, step_begin, step_claim, step_needs, step_resume
from ._subtrees import check_subtree, cover_range, evaluate_subtree_path, verify_subtree
from ._texts import Checkpoint, checkpoint_text, cosignature_message, log_id, note_key_id, read_checkpoint, tree_head_signature, version
from ._tiles import path_of_tiles, path_tiles, proof_of_tiles, proof_tiles, root_of_tiles, root_tiles
from ._tree import Leaf, decode_leaf, leaf_hash, push, root, subtrees_root, verify_consistency, verify_inclusion
from ._witness import WitnessedTree, WitnessRequest, witness_cosign, witness_first, witness_state

__all__ = [
    "CertificateError",
    "Checkpoint",
    "Code",
    "EntryReport",
    "Error",
    "Field",
    "Judgement",
    "Leaf",
    "Name",
    "NameKind",
    "NodeCommand",
    "NodeDoes",
    "NodeFound",
    "NodeOutcome",
    "NodeState",
    "NodeTold",
    "Object",
    "Place",
    "Promise",
    "Published",
    "Receipt",
    "Step",
    "Submission",
    "TileEntry",
    "TileError",
    "TreeHead",
    "Unavailable",
    "Verdict",
    "WitnessRequest",
    "WitnessedTree",
    "batch_name",
    "batch_state",
    "certificate_names",
    "check_promise",
    "check_subtree",
    "checkpoint_text",
    "compare_data_tile",
    "compare_heads",
    "cosignature_message",
    "cover_range",
    "data_tile_leaves",
    "decode_leaf",
    "evaluate_subtree_path",
    "guard_first_head",
    "guard_head",
    "guard_receipt",
    "guard_receipts",
    "guard_state",
    "leaf_hash",
    "lock_state",
    "lock_text",
    "log_id",
    "monitor_begin",
    "monitor_entries",
    "monitor_entry",
    "monitor_head",
    "monitor_older",
    "monitor_proof",
    "monitor_start",
    "names_in_bytes",
    "node_accept",
    "node_next",
    "node_start",
    "note_key_id",
    "path_of_tiles",
    "path_tiles",
    "precertificate_entry",
    "promised_leaf",
    "proof_of_tiles",
    "proof_tiles",
    "push",
    "read_checkpoint",
    "root",
    "root_of_tiles",
    "root_tiles",
    "step",
    "step_begin",
    "step_claim",
    "step_needs",
    "step_resume",
    "subtrees_root",
    "tree_head_signature",
    "verify_consistency",
    "verify_inclusion",
    "verify_subtree",
    "version",
    "watch_list",
    "watched_names",
    "witness_cosign",
    "witness_first",
    "witness_state",
]
