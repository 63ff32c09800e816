#!/usr/bin/env bash
# Times the tests of km_risk as built. Their tables have 88 values, including the largest calls, with 100,000 draws of 10,000,000
# cards. Builds the tests first if they aren't built.
set -euo pipefail
cd "$(dirname "$0")/../crates/km_risk"
[ -x out/km_risk_tests ] || rt test >/dev/null 2>&1
for test in $(out/km_risk_tests --list | sed -n 's/: test$//p'); do
    echo "$test"
    ( time out/km_risk_tests "$test" >/dev/null ) 2>&1 | grep real
done
