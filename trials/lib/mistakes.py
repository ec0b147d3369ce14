"""Mistakes to plant in the second implementation, in the reader of journals and in the library of faults.

The program and the second implementation are only compared, so a mistake in the one is found as one in the other is.
"""
from pathlib import Path
from typing import NamedTuple


class Mistake(NamedTuple):
    """A mistake: its name, the file of trials/lib, what stands there and what is written instead."""

    name: str
    file: str
    old: str
    new: str

    def plant(self, folder: Path) -> None:
        """Writes it into a copy of trials/lib."""
        text = (folder / self.file).read_text()
        if text.count(self.old) != 1:
            raise ValueError(f"{self.name}: its old text stands {text.count(self.old)} times in {self.file}")
        (folder / self.file).write_text(text.replace(self.old, self.new))


def mistakes(file: str, *changes: tuple[str, str, str]) -> list[Mistake]:
    return [Mistake(name, file, old, new) for name, old, new in changes]


MISTAKES = [
    *mistakes(
        "history.py",
        ("null_comes_first", "(value is None, value or 0)", "(value is not None, value or 0)"),
        ("count_counts_null", "        return len(numbers)\n    if", "        return len(values)\n    if"),
        ("mean_is_not_in_lowest_terms", "shared = gcd(sum(numbers), len(numbers))", "shared = 1"),
        ("delete_takes_rows_of_some_test", "return all(passes(", "return not tests or any(passes("),
        ("negative_times_round_up", "((time - self.offset) // self.step)", "int((time - self.offset) / self.step)"),
        ("touch_is_of_the_first_row", "width.end(hull[1]))", "width.end(hull[0]))"),
        ("queue_makes_nothing_stale", "if self.queue else []", "if False else []"),
        ("touch_behind_the_snapshot_is_missed", "any(at > last and", "any(at > last + 1 and"),
        ("oldest_refresh_counts", "return max(spans, default=None)", "return min(spans, default=None)"),
        ("watermark_is_the_end_of_the_window", "max(starts) + view.made.width.step if starts", "span.high if starts"),
        ("watermark_ends_no_window", "ends = [] if mark is None else [mark]", "ends = []"),
        ("stale_ranges_are_cut", "joins = bool(found) and", "joins = False and"),
        ("mode_is_the_first", "if at <= position][-1]", "if at <= position][0]"),
    ),
    *mistakes(
        "sessions.py",
        (
            "read_block_sees_later_commits",
            "        if position is None:\n            position = yield",
            "        position = yield",
        ),
        (
            "rollback_ends_no_block",
            "self.queue = self.reads_at = None\n\n    # ---- aggregates",
            "self.queue = self.queue if not commits else None\n        self.reads_at = None\n\n    # ---- aggregates",
        ),
        ("policy_is_due_later", "self.statement.interval <= time", "self.statement.interval < time"),
        ("finish_needs_no_snapshot", "check(cut in self.snapshots, 20)", "self.snapshots.setdefault(cut, cut)"),
        ("refused_call_leaves_a_snapshot", "            del self.snapshots[cut]\n", ""),
    ),
    *mistakes(
        "lines.py",
        ("comment_must_be_ascii", "for byte in body)", "for byte in raw)"),
        ("longest_line_is_longer", "= 65_536, 67", "= 65_537, 67"),
    ),
    *mistakes(
        "resolve.py",
        ("one_row_more", "= 64, 16, 1_000", "= 64, 16, 1_001"),
        (
            "offset_is_checked_before_its_column",
            "    check(table.number_of(asked.bucket.column) == 0, 8)\n    offset",
            "    check(0 <= (asked.bucket.offset or 0) < asked.bucket.width, 14)\n"
            "    check(table.number_of(asked.bucket.column) == 0, 8)\n    offset",
        ),
    ),
    *mistakes(
        "journal_bytes.py",
        ("dirty_buckets_have_no_groups", "if (span, 0) in dirty]", "if False]"),
        ("finished_refreshes_are_forgotten", "many(waiting) + many(finished)", "many(waiting) + many([])"),
    ),
    *mistakes(
        "faults.c",
        (
            "sync_is_forgotten",
            "    note('s', 0, NULL, 0);",
            "    if (counts[SYNC] % 5)\n        note('s', 0, NULL, 0);",
        ),
        (
            "kill_takes_the_journal_along",
            "if (what == HALF || what == DONE)\n        die();",
            "if (what == HALF || what == DONE) {\n        if (ftruncate(journal, 9)) {}\n        die();\n    }",
        ),
    ),
    *mistakes(
        "forge.py",
        (
            "forged_digit_is_explained",
            'text_of(other), f"AUDIT NO session {i} reply {j}\\n")\n\n\ndef with_another_row',
            'text_of(other), f"AUDIT YES replies {i} @{j}\\n")\n\n\ndef with_another_row',
        ),
    ),
]
