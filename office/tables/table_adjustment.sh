#!/bin/sh
# Writes the cases of the program `table_adjustment` and the answers that it must print: crates/table_adjustment/stdin and stdout.
# A case is a record file as one line of hexadecimal digits: the files of examples/, then lines of crates/replay/stdin, whose first ones are the Kenward–Roger call's.
# The answers are what `oracle bits` prints of the file up to the number of rotations, in residual units: lme-rs's own code, run with
# document 01's algebra. Its lines of IE, which the adjustment does not return, and its headings are left out.
# First: cd office && LME_RS_SRC=DIR cargo build --offline --release -p oracle, where DIR holds the Rust sources.
# Then, in the repository: sh office/tables/table_adjustment.sh
set -eu
oracle=office/target/release/oracle
table=crates/table_adjustment

# 3 example (k): one group with theta 0, so that 1e-8 joins the diagonal. 72 weights. 84 IE infinite, W 0.
# 89 one block of k = 1, weights, two rows, β_H. 92 three blocks, four rows. 101 two blocks, weights. 279 two blocks, six coefficients, five rows.
# 102 more rows than columns, the first specimen torn. 105 no block. 139, 149 one block of k = 2, in 139 17 of 20 specimens torn. 289 outside.
# 772 a group torn, so that the last column of Z is zeros.
# Refused: 78 with 9; 79 with 10, in a coefficient's test; 80 with 10, in Wald; 82 with 4 of the adjustment.
lines='3 72 84 89 92 101 102 105 139 149 279 289 772 78 79 80 82'

{
    for file in pull batches operators torn; do
        xxd -p "examples/$file.rec" | tr -d '\n'
        echo
    done
    for k in $lines; do
        sed -n "${k}p" crates/replay/stdin | cut -d ' ' -f 2
    done
} >"$table/stdin"

while read -r digits; do
    printf %s "$digits" | xxd -r -p | "$oracle" bits | sed -e '/^rotations/q' -e '/^--/d' -e '/^IE/d'
done <"$table/stdin" >"$table/stdout"
