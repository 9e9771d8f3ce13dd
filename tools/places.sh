#!/bin/bash
# Lists the places in crates/*/src that the design pass counts, point by point; docs/DESIGN-PASS.md
# says what became of each. `tools/places.sh 3` lists point 3 alone, `tools/places.sh -c` counts.
cd "$(dirname "$0")/.." || exit 1

code() { # the source lines that match, without comments
    grep -rnE --include=*.rt "$1" crates/*/src | grep -vE '^[^:]*:[0-9]+: *//'
}

places() {
    case $1 in
    # Numbers for kinds and refusals, flags with values, Options and Results taken apart by hand.
    1) code 'Result<bool|kind: u8|number: u8|-> i64|-> u8$|as u8$|from_code\(code|if let Err|Err\(_\) =>|Ok\(_\) =>|is_err\(\)|unreachable\(\)|let (Some|Ok)\(.*else' ;;
    # Functions and types that differ in a type, a number or a constant from one of the same name or form.
    2) code '^ *(pub(\(crate\))? )?(fn (number|cycle_length|byte_count|abandon|cut|contents|body|tail|from|push_bytes|push_decimal|write_bytes|write_decimal|append_bytes|append_decimal|from_code|word|name|element_word|bank_word|slots|threads|pushes|pops|used|holds|begin_push|begin_pop|take_push|take_pop|word_bank_\w+|nibble_bank_\w+)\b|(struct|enum) (Fault|Entry|NewReport|OpenReport|ClosedReport|\w*Refusal)\b)' ;;
    # Loops.
    3) code '^ *(while|for|loop)\b' ;;
    # Equality, order, conversion and printing by hand.
    4) code '^impl.* (From|TryFrom|Display)\b|fn (same\w*|from_\w+|word|name|mark|number|\w+_word)\b' ;;
    # Facts that callers must meet, and parameter lists of five and more.
    5) code 'requires' ; grep -rzoE --include=*.rt 'fn \w+(<[^>]*>)?\(([^()]|\([^()]*\))*\)' crates/*/src | tr '\0' '\n' | tr '\n' ' ' | sed 's/crates\//\ncrates\//g' | awk -F: 'gsub(/: /,": ")>=5' ;;
    # Buffers of a fixed length, and a count beside a buffer.
    6) code '\[[^][]*; ?(SLOTS( / 2)?|LIMIT|RECORD_LENGTH|64|67)\]|\b(used|begun)\b: ' ;;
    # Switches that pick the code to run.
    7) code 'match .*(kind|element|bank)\b.*\{|fn\(|dyn |macro_rules' ;;
    # Proof files, and their lines.
    8) find crates/*/proofs -name '*.antt' ;;
    esac
}

if [ "$1" = -c ]; then
    for point in 1 2 3 4 5 6 7 8; do
        echo "point $point: $(places $point | grep -c .) places, $(places $point | grep -cE '_tests/|/tests\.rt') of them in tests"
    done
    echo "lines of proof: $(find crates/*/proofs -name '*.antt' -exec cat {} + | wc -l)"
elif [ -n "$1" ]; then
    places "$1"
else
    for point in 1 2 3 4 5 6 7; do echo "== point $point"; places $point; done
fi
