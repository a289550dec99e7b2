#!/bin/sh
# Writes the stored samples into a folder: NAME.batch, and NAME.rows with the Rust's rows for it.
#     ./make_samples.sh FOLDER
set -eu
here=$(dirname "$0")
to=$1
cases=$here/build/cases
oracle=$here/build/oracle

# In the domain of equality: the bench must print these rows. With primary messages and used counts
# in NAME.full.
"$cases" generate --seed 1 --count 400 > "$to/domain.batch"
"$oracle" --batch "$to/domain.batch" > "$to/domain.rows"
"$oracle" --full --counts --batch "$to/domain.batch" > "$to/domain.full"

# Outside it: each case's rows begin with the reason.
"$cases" generate --seed 2 --count 100 --outside > "$to/outside.batch"
"$oracle" --domain --batch "$to/outside.batch" > "$to/outside.rows"

# Damaged: what the Rust says without number and place is `input` or `bad-input`.
"$cases" damage --seed 3 --count 400 < "$to/domain.batch" > "$to/damaged.batch"
"$oracle" --domain --batch "$to/damaged.batch" > "$to/damaged.rows"
