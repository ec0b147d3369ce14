"""Refusals: numbers, words and tails, as docs/SQL.md lists them under "Refusals"."""

WORDS = {
    1: "line_long", 2: "not_ascii", 3: "no_session", 4: "no_token", 5: "syntax", 6: "no_relation", 7: "name_taken",
    8: "no_column", 9: "bad_time", 10: "bad_number", 11: "value_count", 12: "null_value", 13: "not_hypertable",
    14: "bad_width", 15: "no_bucket", 16: "in_write_block", 17: "in_read_block", 18: "no_block", 19: "no_refresh",
    20: "no_snapshot", 21: "too_many", 22: "not_aggregate", 23: "too_many_sessions", 24: "stopped", 25: "image_long",
    26: "bad_policy", 27: "too_many_policies", 28: "bad_rollup", 29: "bad_unit", 30: "history_full",
}
OF_THE_LINE = {1, 2, 3, 23}
WITH_A_PLACE = {4, 5, 10}
WITHOUT_A_TAIL = OF_THE_LINE | {16, 17, 18}


class Refused(Exception):
    """A statement is refused: the number, the place of a refused text, and what comes behind the position."""

    def __init__(self, code: int, place: int = 0, more: str = "") -> None:
        super().__init__(code)
        self.code, self.place, self.more = code, place, more

    def text(self, position: int = 0) -> str:
        """The reply, without its session."""
        fault = f"FAULT E{self.code:02} {WORDS[self.code]}"
        if self.code in WITH_A_PLACE:
            return f"{fault} at {self.place}"
        return fault if self.code in WITHOUT_A_TAIL else f"{fault} @{position}{self.more}"
