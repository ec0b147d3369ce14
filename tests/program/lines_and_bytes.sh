# Lines: which are blank, which belong to a session, how long one may be, and bytes that no text has.
set -uo pipefail

# After each line its number. A line ends at a line feed; a carriage return before it is passed over.
{
  printf '\n \t \n\r\n \t\r\n\r \n-- a: COMMIT\n \r--\xff\n'
  printf 'SELECT\na\na :COMMIT\nA:COMMIT\n_a:COMMIT\n1:COMMIT\n:COMMIT\nabcdefghijklmnopq:\na--:\n'
  printf 'a:\xc3\xa9\n\x80\n'
  printf 'a:\nabcdefghijklmno_:x\n\t s1_: COMMIT\r\na:SELECT '\''x--y'\''\na:\r \na:\x00\na:COMMIT -- \xff\n'
  printf 'b:COMMIT'
} | tsctl run
echo "status $?"

# A statement with so many blanks behind it that its line has so many bytes; the last line has no end.
line() {
  printf 'a: COMMIT%*s' $(($1 - 9)) ''
}
{ line 65535; echo; line 65536; echo; line 65537; echo; echo "b: COMMIT"; line 500000; echo; echo "b: COMMIT"; line 131072; } | tsctl run
line 65536 | tsctl run

# With a worker for each session what is refused of the input comes first, and then each session's replies: here of two
# sessions, and of 64 where 65 speak, whose statements have no word.
printf 'a: x -- c\n\n-- note\nb:y\n?\n\xff\na:z' | tsctl par
{ for name in {a..m}{a..e}; do echo "$name:"; done; line 65537; } | tsctl par >many
head -n 2 many
tail -n +3 many | awk '{ $1 = ""; print }' | sort | uniq -c

# Nothing is printed for nothing.
tsctl run </dev/null
printf '\n  -- nothing\n\t\r\n' | tsctl run
echo "status $?"
