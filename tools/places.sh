#!/bin/sh
# Counts the places of docs/DESIGN-PASS.md in crates/*/src, and lists them with -l. Run at the top of a checkout.
list=$1
count() {
    name=$1
    shift
    if [ "$list" = -l ]; then
        echo "== $name"
        "$@" || true
    else
        printf '%s: %s\n' "$name" "$("$@" | wc -l)"
    fi
}
src() { grep -rnE --include=*.rt "$1" crates/*/src; }
count '1 enums of the shape of Option or Result' src '^pub enum (Index|Answer|HexColor|Hex|Entry|Nodata|Truncated|OptionalColor|TotalRange|PixelColor) '
count '1 an answer beside a value (struct fields)' src '^    pub answer: Answer,'
count '1 a refusal handed on by hand' src 'if let Answer::Refused\(|Answer::Refused\(why\) => '
count '1 numbers for kinds' src 'kind: (usize|u32)|match row\[|number: u32'
count '2 twins by sample type' src 'fn [a-z_]*(_u8|_i16|_f32)\(|^mod raster_|^pub mod raster_'
count '2 twins by lane count' src 'fn [a-z_]*(4|8|16)(_searched)?\('
count '2 twins by where colours come from' src 'fn [a-z_]*_from_ramp\('
count '3 loops with an index counted by hand' src '^ +while '
count '4 equality, conversion and printing by hand' src 'fn (number|index|from_number|unwrap_or|color_if|given_flag|given_word|flag_of|same_words|settings_from_c|settings_to_c|name|is_same)\('
count '5 a bound in a clause of its own (count, size, lanes)' src 'requires .*(count ≤ 64|count ≤ 256|size ≤ 513|lanes ≤ 16|length keys.now ≡ 256)'
count '5 parameters that travel together (five parts of a lent legend)' src '^    lookup: &\[u32; 513\],'
count '6 columns of bands with a count' src 'starts: &\[f32; 64\]'
count '6 arrays with a count or lanes beside' src '(keys: &\[i64; 256\]|bands: \[LegendBand; 64\]|ranges: \[ValueRange; 64\]|value: \[f32; 16\]|v: \[f32; 16\])'
count '7 tables of functions, switches on a step' src 'fn\(|dyn |match row\[0\]'
if [ "$list" != -l ]; then
    printf '8 lines of proofs: %s\n' "$(find crates/*/proofs -name '*.antt' | xargs cat | wc -l)"
    printf '8 files of answers: %s\n' "$(find crates/*/proofs -name Answers.antt | wc -l)"
fi
