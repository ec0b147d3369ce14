# An input may have 67,108,864 bytes, and not one more.
set -u
yes '' | head -c 67108864 | tsctl run; echo "status $?"
yes '' | head -c 67108865 | tsctl run 2>&1; echo "status $?"
yes '' | head -c 67108865 | tsctl par 2>&1; echo "status $?"
