#!/bin/sh
# Runs each built test whose name holds `refused_memory` once for each of its requests for memory, that one refused.
# The tests are those that `rt ci`, or `rt test` in a crate's folder, left in crates/NAME/out.
# The last line is 'N passed, M failed': a test passes where it makes a request and every one of its runs passes.
set -u
room=$(mktemp -d)
trap 'rm -rf "$room"' EXIT
cc -shared -fPIC -O1 -o "$room/faults.so" "$(dirname "$0")/../cases/faults.c" || exit 2
passed=0
failed=0
for tests in crates/*/out/*_tests; do
    [ -x "$tests" ] || continue
    for name in $("$tests" --list 2>/dev/null | sed -n 's/: test$//p' | grep refused_memory); do
        count=$(COUNTED=1 LD_PRELOAD="$room/faults.so" "$tests" "$name" 2>&1 >/dev/null | tail -1)
        bad=0
        case $count in
        '' | 0 | *[!0-9]*)
            echo "FAILED: $name made no request that could be refused: $count"
            bad=1
            count=0
            ;;
        esac
        k=1
        while [ "$k" -le "$count" ]; do
            if ! REFUSE=$k LD_PRELOAD="$room/faults.so" timeout 60 "$tests" "$name" >"$room/out" 2>&1; then
                echo "FAILED: $name, request $k refused"
                cat "$room/out"
                bad=1
            fi
            k=$((k + 1))
        done
        echo "$name: each of $count requests refused in turn"
        if [ "$bad" = 0 ]; then passed=$((passed + 1)); else failed=$((failed + 1)); fi
    done
done
echo "$passed passed, $failed failed"
[ "$failed" = 0 ] && [ "$passed" -gt 0 ]
