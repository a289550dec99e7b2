#!/bin/sh
# Generates cases for each seed given and prints what they cover. Ends with 1 if the quotas of
# README.md do not hold for every seed.
#     ./coverage.sh COUNT SEED...
set -eu
cd "$(dirname "$0")"
count=$1
shift
bad=0
for seed; do
    build/cases generate --seed "$seed" --count "$count" > "build/seed-$seed.batch"
    echo "seed $seed"
    build/cases coverage "build/seed-$seed.batch" || bad=1
    echo
done
exit $bad
