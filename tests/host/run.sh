#!/bin/sh
# Builds the example host and holds what it prints of every round of examples/ to the listing of that round.
# The last line is 'N passed, 0 failed'.
set -eu
cd "$(dirname "$0")/../.."
examples/host/build.sh
passed=0 failed=0

# What the host should print of a listing: its winners, or the refusal as it stands.
told() {
    sed -n -e 's/^\(application [0-9]*\) won \([0-9]*\) bid .*/\1 is paid \2/p' -e '/^refused /p' "$1" |
        awk '/is paid/ { printf "%s %s is paid %d.%03d\n", $1, $2, int($5 / 1000), $5 % 1000; next } { print }'
}

for round in examples/*.round; do
    told "${round%.round}.listing" >target/host.expected
    target/host "$round" >target/host.printed || [ $? = 1 ]
    if cmp -s target/host.expected target/host.printed; then
        passed=$((passed + 1))
    else
        echo "$round: the host prints"
        diff target/host.expected target/host.printed || true
        failed=$((failed + 1))
    fi
done
echo "$passed passed, $failed failed"
[ "$failed" = 0 ]
