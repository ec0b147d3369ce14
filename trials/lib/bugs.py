"""Bugs to plant in the sources of the program, such as a good programmer might make.

All of them are built into one program, which has `if planted() == NUMBER { new } else { old }` at each place. So the
old and the new text are expressions of one type, or statements.
"""
from typing import NamedTuple


class Bug(NamedTuple):
    """A bug: its name, the file of crates/, a text that stands there once, and what is written instead of its part
    between the marks « and », or of all of it if it has no marks."""

    name: str
    file: str
    old: str
    new: str

    @property
    def parts(self) -> tuple[str, str, str]:
        """What stands before, in and behind the marks."""
        before, mark, rest = self.old.partition("«")
        if not mark:
            return "", self.old, ""
        inside, _, behind = rest.partition("»")
        return before, inside, behind

    @property
    def plain(self) -> str:
        """The old text without marks."""
        return "".join(self.parts)

    def planted(self, number: int, call: str) -> str:
        """The old text with the bug in it, if the call gives that number."""
        before, inside, behind = self.parts
        chosen = f"if {call} == {number} {{ {self.new} }} else {{ {inside} }}"
        return before + (chosen if inside.endswith(";") else f"({chosen})") + behind


def bugs(file: str, *changes: tuple[str, str, str]) -> list[Bug]:
    return [Bug(name, file, old, new) for name, old, new in changes]


STORAGE = [
    *bugs(
        "txn_journal/src/writes.rt",
        (
            "frame_is_not_synced_before_its_commit_byte",
            "write_synced(disk, end + 1, frame.bytes())?;",
            "disk.write_at(end + 1, frame.bytes())?;",
        ),
        ("commit_byte_is_not_synced", "write_synced(disk, end, &[OPEN])", "disk.write_at(end, &[OPEN])"),
    ),
    *bugs(
        "txn_journal/src/journals.rt",
        (
            "next_frame_is_a_byte_too_far",
            "self.end += «frame.bytes().len() as u64»;",
            "frame.bytes().len() as u64 + 1",
        ),
        ("version_is_raised_in_memory_only", "put_version(&mut self.disk)", "self.disk.sync()"),
    ),
    *bugs(
        "txn_journal/src/heads.rt",
        ("frame_may_end_the_file", "left - GATE_AND_LENGTH <= length", "left - GATE_AND_LENGTH < length"),
        ("torn_header_is_taken_for_a_header", "*head == HEADER", "head[8] == HEADER[8]"),
    ),
    *bugs(
        "txn_journal/src/readers.rt",
        ("damage_is_named_a_byte_too_far", "Next::Damaged(self.at)", "Next::Damaged(self.at + 1)"),
    ),
    *bugs(
        "ts_store/src/appends.rt",
        ("event_counts_that_the_disk_refused", "Append::DiskFault => «Append::DiskFault»", "Append::Done"),
    ),
]
RECOVERY = [
    *bugs(
        "ts_store/src/replays.rt",
        (
            "replay_skips_cuts",
            "follower.follow(rt, event)",
            "match event { Event::Cut { .. } => Ok(()), other => follower.follow(rt, other) }",
        ),
    ),
    *bugs(
        "ts_store/src/checkpoints.rt",
        ("checkpoint_without_new_events", "recorder.engine.events().is_empty()", "pos == 0"),
    ),
    *bugs(
        "engine_state/src/images.rt",
        ("image_forgets_finished_refreshes", "self.parts.done()", "Ok(Seq::new(self.alloc))"),
    ),
    *bugs(
        "base_image/src/groups.rt",
        ("image_has_max_in_place_of_min", "put_value(out, sums.least)?;", "put_value(out, sums.most)?;"),
    ),
    *bugs(
        "engine_state/src/image_views.rt",
        ("dirty_buckets_of_an_image_are_clean", "saved.dirty.items()", "&[]"),
        (
            "dirty_groups_of_an_image_are_recomputed",
            "clean.replace(&saved.dirty, «&kept»)?",
            "&clean",
        ),
    ),
    *bugs(
        "engine_state/src/image_tables.rt",
        ("threshold_of_an_image_forgets_pending_cuts", "greater(lasts, waiting)", "lasts"),
    ),
    *bugs(
        "mat_log/src/lasts.rt",
        (
            "refreshes_side_by_side_become_one",
            "piece.span.hi == next.span.lo && piece.pos == next.pos",
            "piece.span.hi == next.span.lo",
        ),
    ),
]
ROWS = [
    *bugs("seg_rows/src/deaths.rt", ("deleted_row_is_seen_once_more", "Some(died) => «died <= pos»", "died < pos")),
    *bugs(
        "seg_rows/src/segments.rt",
        (
            "joined_segment_dies_with_its_first_part",
            "both_died(self.dead, other.dead)",
            "both_died(self.dead, self.dead)",
        ),
    ),
    *bugs(
        "chunk_catalog/src/time_ranges.rt",
        ("chunk_that_begins_before_a_span_is_skipped", "lower_by(span.lo, «interval - 1»)", "0"),
    ),
    *bugs("stmt_check/src/queries.rt", ("drop_takes_a_row_at_its_bound", "cmp: «Cmp::Lt»", "Cmp::Le")),
]
STALE = [
    *bugs(
        "row_versions/src/tables.rt",
        (
            "deletes_make_nothing_stale",
            "self.effect.and_removed(killed.removed, «killed.hull»)?",
            "None",
        ),
    ),
    *bugs(
        "inval_log/src/logs.rt",
        ("insert_across_the_threshold_is_not_logged", "hull.least < self.threshold", "hull.most < self.threshold"),
    ),
    *bugs("mat_log/src/ranges.rt", ("stale_ranges_are_not_joined", "if «range.hi == next.lo» {", "range.hi < next.lo")),
    *bugs(
        "mat_log/src/logs.rt",
        ("refresh_clears_what_came_after_it", "self.pending.cleared_upto(span, «snap»)?", "u64::MAX"),
    ),
    *bugs(
        "engine_state/src/finishes.rt",
        ("watermark_is_the_end_of_the_window", "greater(view.mark(), «job.top»)", "Some(job.span.hi)"),
    ),
    *bugs(
        "engine_state/src/steps.rt",
        (
            "older_refresh_overwrites_a_newer_one",
            "to_renew(job.span, job.spans.items(), «job.snap»)?",
            "u64::MAX",
        ),
    ),
    *bugs(
        "engine_state/src/tables.rt",
        ("cut_lowers_the_threshold", "log.threshold().max(hi)", "hi"),
        ("queue_makes_nothing_stale", "log_with_hull(self.log(), «effect.hull», pos)?", "None"),
    ),
    *bugs("ts_bucket/src/windows.rt", ("window_begins_within_a_bucket", "{ «start + w.step» } else", "start")),
    *bugs(
        "ts_bucket/src/whole_spans.rt",
        (
            "bucket_that_a_change_only_reaches_is_left_out",
            "bucket_start(w, hull.most) + step",
            "bucket_start(w, hull.most - 1) + step",
        ),
    ),
]
SESSIONS = [
    *bugs(
        "ts_sessions/src/name_checks.rt",
        (
            "read_block_sees_later_events",
            "self.resolve_at(rt, alloc, shot, stmt, bytes, steps)",
            "self.resolve_at(rt, alloc, &backend.snap()?, stmt, bytes, steps)",
        ),
    ),
    *bugs(
        "ts_sessions/src/block_ends.rt",
        (
            "rollback_keeps_its_block",
            "say(alloc, self.block.given_up(), «Change::Enters(Open::Nothing)»)",
            "Change::Nothing",
        ),
        (
            "commit_turns_its_queue_around",
            "let ops = «queue.ops.copy()?»;",
            "{ let mut items = queue.ops.copy()?.into_items(); items.reverse(); Seq::of(items) }",
        ),
        (
            "finish_takes_the_snapshot_of_the_last_cut",
            "self.held.get_mut(&cut)",
            "self.held.get_mut(&self.cut.unwrap_or(cut))",
        ),
    ),
    *bugs(
        "ts_sessions/src/queries.rt",
        (
            "query_in_a_block_misses_its_queue",
            "shot.answer_with(rt, &queue.ops, query, steps)",
            "shot.answer(rt, query, steps)",
        ),
    ),
    *bugs(
        "stmt_check/src/inserts.rt",
        (
            "values_of_a_row_are_checked_first",
            "refuse_if(pos, NULL_VALUE, shape.left_out)?;",
            "check_values(pos, shape.rules.items(), values)?; refuse_if(pos, NULL_VALUE, shape.left_out)?;",
        ),
    ),
    *bugs("ts_io/src/line_reader.rt", ("longest_line_is_refused", "n > LINE_LIMIT", "n >= LINE_LIMIT")),
    *bugs(
        "policy_jobs/src/policies.rt",
        (
            "policy_is_due_a_second_later",
            "every as i128 <= now as i128 - last as i128",
            "(every as i128) < now as i128 - last as i128",
        ),
        ("policy_counts_from_its_first_run", "self.ran = «Some(now)»;", "self.ran.or(Some(now))"),
        (
            "policy_begins_before_the_least_time",
            "(MIN_TIME as i128).max(now as i128 - before as i128)",
            "now as i128 - before as i128",
        ),
    ),
]
ANSWERS = [
    *bugs(
        "partial_agg/src/partials.rt",
        (
            "null_is_counted",
            "Fun::Count => «Datum::Int(i128::from(self.values))»",
            "Datum::Int(i128::from(self.count))",
        ),
        (
            "min_of_nothing_is_zero",
            "least_joined(self.values, self.least, other.values, other.least)",
            "self.least.min(other.least)",
        ),
        ("mean_is_over_null", "Fun::Avg => «mean(self.values, self.sum)»", "mean(self.count, self.sum)"),
        (
            "sum_wraps_at_64_bits",
            "self.sum += i128::from(v);",
            "self.sum = i128::from((self.sum as i64).wrapping_add(v));",
        ),
    ),
    *bugs(
        "hier_agg/src/stale.rt",
        ("stale_bucket_of_a_roll_up_is_cut", "Some(end) => «Ok(end)»", "Ok(start)"),
    ),
    *bugs(
        "hier_agg/src/wides.rt",
        (
            "roll_up_keeps_its_bucket_too_long",
            "bucket.start <= t && t < bucket.end",
            "bucket.start <= t",
        ),
    ),
    *bugs(
        "cal_bucket/src/buckets.rt",
        (
            "calendar_bucket_has_the_first_time_of_the_next",
            "at_hand.start <= t && t < at_hand.end",
            "at_hand.start <= t && t <= at_hand.end",
        ),
    ),
    *bugs(
        "cal_bucket/src/months.rt",
        ("month_before_2000_is_rounded_up", "= «t - YEAR_2000»;", "(t - YEAR_2000) / 86_400 * 86_400"),
    ),
]
PARALLEL = [
    *bugs(
        "shared_store/src/desk.rt",
        (
            "mode_is_set_twice_in_par",
            "held.value.set_mode(view, only)",
            "{ let _first = held.value.set_mode(view, only); held.value.set_mode(view, only) }",
        ),
    ),
    *bugs(
        "par_run/src/outputs.rt",
        (
            "line_is_told_by_another_session",
            "actor.name().bytes()",
            "match output.sessions.as_slice().first() { Some(it) => it.name.items(), None => actor.name().bytes() }",
        ),
    ),
]
AUDIT = [
    *bugs(
        "audit/src/replayed_session.rt",
        (
            "audit_compares_lengths_only",
            "told.reply.text.items() != reply",
            "told.reply.text.len() != reply.len()",
        ),
        ("audit_lets_positions_go_back", "self.at = «told.last»;", "self.at.min(told.last)"),
    ),
    *bugs("audit/src/calls.rt", ("audit_takes_any_event", "*next == *event", "*next == *next")),
    *bugs("audit/src/numbers.rt", ("audit_lets_a_position_be_named_twice", "*number <= seen", "*number < seen")),
    *bugs("audit/src/numbers.rt", ("audit_misses_the_last_event", "if «seen < end» {", "seen < start")),
    *bugs(
        "audit_past/src/deed_replays.rt",
        ("audit_lets_a_read_come_before_the_last", "at <= *look && *look <= past.length()", "*look <= past.length()"),
    ),
]
BUGS = [*STORAGE, *RECOVERY, *ROWS, *STALE, *SESSIONS, *ANSWERS, *PARALLEL, *AUDIT]
