# Which texts `audit` reads as a transcript. All are audited beside a journal of one event. Needs python3.
set -uo pipefail
echo "a: CREATE TABLE m (time BIGINT NOT NULL, v BIGINT)" | tsctl run >/dev/null
python3 - <<'PY'
import subprocess

TABLE = r'{"line":"a: CREATE TABLE m (time BIGINT NOT NULL, v BIGINT)","reply":"a: TABLE @1\n"}'
REFUSED = r"a: FAULT E18 no_block\n"


def says(name, text):
    """What an audit says of a text, or of bytes."""
    data = text if isinstance(text, bytes) else text.encode()
    ran = subprocess.run(["tsctl", "audit"], input=data, capture_output=True)
    print(f"{name}: {(ran.stdout + ran.stderr).decode().rstrip()}", flush=True)


def start(number):
    says(f"start {number}", f'{{"sessions":[{{"name":"a","replies":[{TABLE}]}}],"start":{number}}}')


def replies(name, them):
    says(name, f'{{"sessions":[{{"name":"a","replies":[{them}]}}],"start":0}}')


def named(name):
    says(f"name {name}", f'{{"sessions":[{{"name":"{name}","replies":[]}}],"start":1}}')


def line(name, text, reply):
    replies(name, f'{TABLE},{{"line":"{text}","reply":"{reply}"}}')


print("# numbers")
for number in "0 00 0.0 -0 1e0 0e0 +0 -1 \"0\" null true 18446744073709551616 18446744073709551615 2 1".split():
    start(number)

print("# members: another order, the last of equal ones, one more, one less, of another kind")
says("start first", f'{{"start":0,"sessions":[{{"replies":[{TABLE}],"name":"a"}}]}}')
replies("reply first", r'{"reply":"a: TABLE @1\n","line":"a: CREATE TABLE m (time BIGINT NOT NULL, v BIGINT)"}')
start('7,"start":0')
start('0,"start":7')
start('0,"end":1')
replies("one more in a reply", TABLE[:-1] + ',"at":1}')
says("one more in a session", '{"sessions":[{"name":"a","replies":[],"n":0}],"start":1}')
says("no start", '{"sessions":[]}')
says("no sessions", '{"start":1}')
says("no name", '{"sessions":[{"replies":[]}],"start":1}')
says("no replies", '{"sessions":[{"name":"a"}],"start":1}')
replies("no reply", '{"line":"a: COMMIT"}')
says("sessions by name", '{"sessions":{"a":[]},"start":1}')
says("a name for a session", '{"sessions":["a"],"start":1}')
says("a number for a name", '{"sessions":[{"name":1,"replies":[]}],"start":1}')
replies("a line for a reply", '"a: COMMIT"')
replies("a reply of null", '{"line":"a: COMMIT","reply":null}')
says("nobody", '{"sessions":[],"start":1}')
says("in a list", '[{"sessions":[],"start":1}]')

print("# JSON: blanks and escapes, other bytes before, between and behind, and what is none")
spread = f'{{"sessions":[{{"name":"a","replies":[{TABLE}]}}],"start":0}}'
for tokens, apart in ('{"', ' {\r\n"'), ('":', '"\t: '), ("[", "[\n"), ("}", "\n\t}"), ("]", " ] "), (',"', ' , "'):
    spread = spread.replace(tokens, apart)
says("blanks and line ends", spread)
says("escaped", r'{"\u0073essions":[{"name":"\u0061","replies":[' + TABLE.replace(r"\n", r"\u000a") + ']}],"start":0}')
WHOLE = '{"sessions":[],"start":1}'
says("a byte order mark", b"\xef\xbb\xbf" + WHOLE.encode())
for end in ["x", ",", "{}", "0", "]", "\0"]:
    says(f"with {end!r} behind", WHOLE + end)
for text in ["", " \n", "null", "[]", "0", '"a"', WHOLE[:-1], WHOLE.replace('"', "'"), WHOLE[:-1] + ",}", WHOLE.replace("[]", "[,]")]:
    says(f"all of it {text!r}", text)
for count in 127, 128, 200_000:
    says(f"{count} lists deep", count * "[" + count * "]")
says("127 lists deep for a reply", WHOLE.replace("[]", '[{"name":"a","replies":' + 127 * "[" + 127 * "]" + "}]"))

print("# letters")
line("a tab written out", r"a:\tCOMMIT", REFUSED)
line("a tab as it is", "a:\tCOMMIT", REFUSED)
line("half a pair in a reply", "a: COMMIT", r"\ud800")
line("half a pair in a comment", r"a: COMMIT -- \udc00", REFUSED)
line("a pair in a reply", "a: COMMIT", r"\ud83d\ude00")
line("a pair in a comment", r"a: COMMIT -- \ud83d\ude00", REFUSED)
line("a pair in a line", r"a: COMMIT \ud83d\ude00", REFUSED)
for odd in [b"\xff", b"\xc3", b"\xc0\xaf", b"\xed\xa0\x80", b"\xc3\xa9"]:
    said = rf'{{"sessions":[{{"name":"a","replies":[{{"line":"a: COMMIT -- X","reply":"{REFUSED}"}}]}}],"start":1}}'
    says(f"bytes {odd.hex()} in a comment", said.encode().replace(b"X", odd))
says("byte ff between tokens", WHOLE.encode().replace(b",", b",\xff"))

print("# names: up to 16 letters, digits and _, a letter first, and each once")
for name in ["abcdefghijklmnop", "abcdefghijklmnopq", "a_1", "1a", "_a", "A", "a b", ""]:
    named(name)
says("a twice", '{"sessions":[{"name":"a","replies":[]},{"name":"a","replies":[]}],"start":1}')

print("# lines: as they are told apart in an input")
line("blanks before the name", "  a: COMMIT", REFUSED)
line("a comment behind it", "a: COMMIT -- a: BEGIN", REFUSED)
line("a comment for a statement", "a: -- COMMIT", r"a: FAULT E05 syntax at 3\n")
line("no statement", "a:", r"a: FAULT E05 syntax at 3\n")
line("of another session", "b: COMMIT", r"b: FAULT E18 no_block\n")
line("of no session", "COMMIT", r"line 1: FAULT E03 no_session\n")
line("empty", "", "")
line("a comment alone", "-- a: COMMIT", "")
line("a line feed in it", r"a: COMMIT\n", REFUSED)
line("65,536 bytes", "a: COMMIT".ljust(65_536), REFUSED)
line("65,537 bytes", "a: COMMIT".ljust(65_537), REFUSED)

print("# statements on policies, also where they are refused")
line("TICK", "a: tick", r"a: FAULT E05 syntax at 8\n")
line("TICKS", "a: TICKS", r"a: FAULT E05 syntax at 4\n")
line("a policy", "a: SELECT add_retention_policy('m', drop_after => 1)", r"a: FAULT E13 not_hypertable @1\n")
line("half a policy", "a: SELECT Add_Continuous_Aggregate_Policy", r"a: FAULT E05 syntax at 42\n")
line("SELECT alone", "a: SELECT", r"a: FAULT E05 syntax at 10\n")
PY
