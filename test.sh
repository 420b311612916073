#!/usr/bin/env bash
# The gate. It checks names, twin files and pages, then proves, tests and runs every crate (`rt ci`), and runs the program on damaged and
# random inputs, and with little memory. Then it tries wrong bodies. Before its last line it prints what it took.
set -euo pipefail
unset CDPATH
cd -- "$(dirname -- "$0")"
python3 tools/short_names.py
python3 tools/names.py
python3 tools/twins.py
# the pages: their links, pictures, index of public items, words, examples and figures
python3 tools/links.py
python3 tools/charts.py
python3 tools/api_index.py
python3 tools/glossary.py
python3 tools/pages.py
python3 tools/document_examples.py
python3 tools/believed.py
python3 tools/bitrun_cases.py
# each edit in wrong-bodies/ finds its text
python3 tools/wrong_bodies.py --some 0
log="$(mktemp)"
spent="$(mktemp)"
trap 'rm -f "$log" "$spent"' EXIT
rt ci | tee "$log"
programs=(crates/bitrun/out/bitrun crates/bitrun/out/bitrun.by-rattle)
python3 tools/endings.py "${programs[@]}"
python3 tools/fuzz.py "${programs[@]}"
# wrong bodies that the check must refuse: each that a page shows, each that is named here, and as many of the others as `--some` says
python3 tools/wrong_bodies.py --some 12 pages/ bounds/{i7_sum_out_of_range,new_of_u7_one_past_the_greatest,u53_shifted_by_its_width_as_u128} \
    arbitrary_base/{multiplies_as_often_as_the_exponent_says,quotient_rounds_down,shifts_left_without_the_mask,sum_drops_the_width} \
    arbitrary_int/{leaves_the_narrow_registers_alone_at_a_stop,leaves_zero_in_the_registers,masks_first_and_runs_narrow_only} \
    bit_fields/{clears_the_bits_above_the_field,every_two_fields_are_disjoint,no_two_fields_are_disjoint}
# prove.py must find laws again for functions whose attributes it does not read, and in generic code a group
python3 tools/prove.py --anew --jobs 1 laws_bits reversals::rev_and rotations::rotl_and shifts::shl_and right_rotations::and_turned \
    moved_bits::complement_moved
python3 tools/prove.py --anew --jobs 1 facts_generic groups::bit_sums::other_bits_by_difference
times > "$spent"
awk -F '[ms ]+' -v wall="$SECONDS" '{ sum += 60 * ($1 + $3) + $2 + $4 }
    END { printf "processor seconds %.0f, wall %.0f min\n", sum, wall / 60 }' "$spent"
tail -n 1 "$log"
