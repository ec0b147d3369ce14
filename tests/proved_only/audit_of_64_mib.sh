# A transcript may have 67,108,864 bytes, and not one more.
set -u
tsctl run </dev/null
front='{"sessions":[],"start":0}'
(printf '%s' "$front"; yes '' | head -c $((67108864 - ${#front}))) | tsctl audit; echo "status $?"
(printf '%s' "$front"; yes '' | head -c $((67108865 - ${#front}))) | tsctl audit 2>&1; echo "status $?"
