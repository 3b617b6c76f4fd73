#!/bin/sh
# Runs the tests of the buffer's calls, of cutting lines, of whole runs, also with stages of substitution that grow, and
# of kerning, then the built programs: `shapeline` on its stored input and on those of `growths`, and `fill_paragraph` on
# lines of both directions in two fonts, written and drawn. Each is run with the first growth of memory refused, then the
# second, and so on until a run has no such growth. Between them it counts the growths of calls that take no memory: the
# buffer's, the steps of a run that can't be refused, runs over an empty text, and lines of no glyphs.
#
# A run of a test must pass, or say that a call was `refused` (after its own comparisons of what that call left), or
# that what the test itself takes could not grow (`AllocError`, `AllocFailed`, `OutOfMemory`, `Memory`). A run of
# `shapeline` must end in one of three ways:
#
#   the whole answer, status 0;
#   the same with `refused 1` in place of what answers one line, status 0;
#   the answers of the first lines, then `error: input`, status 1.
#
# A run of `fill_paragraph` must write the whole answer, status 0 (a list can grow later than where it asked at once for
# all that it may need), or nothing but the error `out of memory`, status 1.
cd "$(dirname "$0")/.." || exit 1
program=crates/shapeline/out/shapeline

[ -x "$program" ] || (cd crates/shapeline && rt run < stdin > /dev/null) || exit 1
work=$(mktemp -d) || exit 1
trap 'rm -rf "$work"' EXIT
gcc -O1 -Wall -Werror -shared -fPIC -o "$work/refuse.so" tests/refuse.c -ldl || exit 1

# Whether a run was whole because it has fewer growths than the number of the one to be refused.
is_past_the_last() {
    asked=$(cat "$work/count")
    [ "$asked" -lt "$1" ] && return
    echo "$2: growth $1 of $asked was refused, and the run was whole"
    return 1
}

# Runs one test of a crate with each growth refused in turn, until a run passes that has no such growth.
refuse_test() {
    tests=crates/$1/out/$1_tests
    [ -x "$tests" ] || (cd "crates/$1" && rt test > /dev/null) || return 1
    n=1 refused=0
    while [ "$n" -le 1000 ]; do
        # The shell says `Aborted` of a test that fails, which is meant here: so it says that to nobody.
        answer=$(
            exec 2> /dev/null
            COUNTED_GROWTHS="$work/count" REFUSED_GROWTH=$n LD_PRELOAD="$work/refuse.so" "$tests" "$2" 2>&1
            exit $?
        )
        status=$?
        case "$status $answer" in
            "0 "*)
                is_past_the_last "$n" "$3" || return 1
                echo "refused growths: $refused of $3 refused, growth $n isn't reached"
                [ "$refused" -gt 0 ]
                return
                ;;
            *'error: "refused"'*) refused=$((refused + 1)) ;;
            *'error: AllocError'* | *'error: AllocFailed'* | *'error: OutOfMemory'* | *'error: Memory'*) ;;
            *)
                echo "$3: status $status and this answer:"
                echo "$answer"
                return 1
                ;;
        esac
        n=$((n + 1))
    done
    echo "$3: no run was whole"
    return 1
}

refuse_test test_buffers refusals::growths "the buffer's calls" || exit 1
refuse_test test_buffers lines::growths "the lines of some glyphs" || exit 1
refuse_test test_runs refusals::runs "the runs over some characters" || exit 1
refuse_test test_runs refusals::mark_above_and_below "the runs that place marks" || exit 1
refuse_test test_runs refusals::stages "the run with stages that grow" || exit 1
refuse_test test_runs refusals::comparing "two texts that are compared" || exit 1
refuse_test test_runs refusals::a_key "the key of a text" || exit 1
refuse_test test_fonts kerning::growths "the run that kerns by a font's table, and its plan" || exit 1

# How many growths a test of a crate asks for.
growths_of() {
    COUNTED_GROWTHS="$work/count" LD_PRELOAD="$work/refuse.so" "crates/$1/out/$1_tests" "$2" > /dev/null || exit 1
    cat "$work/count"
}

# Two tests of a crate begin alike; what the second one does besides takes no memory.
take_none() {
    [ -x "crates/$1/out/$1_tests" ] || (cd "crates/$1" && rt test > /dev/null) || return 1
    begun=$(growths_of "$1" "$2") || return 1
    used=$(growths_of "$1" "$3") || return 1
    if [ "$begun" -eq 0 ] || [ "$begun" -ne "$used" ]; then
        echo "$4 take memory: $begun growths without them, and $used with them"
        return 1
    fi
    echo "growths: $begun, and none for $4"
}

filled=no_memory::filled
take_none test_buffers "${filled}_is_begun" "${filled}_and_used" "the buffer's calls that can't be refused" || exit 1
take_none test_buffers lines::glyphs_are_begun lines::no_glyphs_make_no_line "lines of no glyphs" || exit 1
take_none test_runs no_memory::text_is_begun no_memory::steps_are_made "the steps that can't be refused" || exit 1
take_none test_runs no_memory::text_is_begun no_memory::empty_text_is_shaped "runs over an empty text" || exit 1

# Whether an answer is the expected one with `refused 1` in place of what answers one line.
is_refused() {
    answered=$(grep -cE '^(prepared|same|uncut|line 0-)' "$2")
    line=1
    while [ "$line" -le "$answered" ]; do
        awk -v line="$line" '/^(prepared|same|uncut|line 0-)/ { n++; if (n == line) print "refused 1" } n != line' "$2" > "$work/refused"
        cmp -s "$1" "$work/refused" && return 0
        line=$((line + 1))
    done
    return 1
}

# Whether an answer is the beginning of the expected one, and then `error: input`.
is_input_error() {
    lines=$(($(wc -l < "$1") - 1))
    { head -n "$lines" "$2"; echo "error: input"; } > "$work/input"
    cmp -s "$1" "$work/input"
}

# Runs the program on an input with each growth refused in turn, until a run is whole that has no such growth.
refuse_all() {
    n=1 answers=0 inputs=0
    while [ "$n" -le 1000 ]; do
        COUNTED_GROWTHS="$work/count" REFUSED_GROWTH=$n LD_PRELOAD="$work/refuse.so" "$program" < "$1" > "$work/answer"
        status=$?
        if [ "$status" -eq 0 ] && cmp -s "$work/answer" "$2"; then
            is_past_the_last "$n" "$1" || return 1
            echo "refused growths: $inputs gave 'error: input', $answers gave 'refused 1', growth $n isn't reached"
            [ "$inputs" -gt 0 ] && [ "$answers" -gt 0 ]
            return
        elif [ "$status" -eq 0 ] && is_refused "$work/answer" "$2"; then
            answers=$((answers + 1))
        elif [ "$status" -eq 1 ] && is_input_error "$work/answer" "$2"; then
            inputs=$((inputs + 1))
        else
            echo "growth $n refused: status $status and this answer:"
            cat "$work/answer"
            return 1
        fi
        n=$((n + 1))
    done
    echo "no run was whole"
    return 1
}

refuse_all crates/shapeline/stdin crates/shapeline/stdout || exit 1
for input in tests/growths/*.in; do
    refuse_all "$input" "${input%.in}.out" || exit 1
done

paragraph=$PWD/crates/fill_paragraph/out/fill_paragraph
[ -x "$paragraph" ] || (cd crates/fill_paragraph && rt run > /dev/null) || exit 1

# Runs `fill_paragraph` with each growth refused in turn, until a run has no such growth.
refuse_paragraph() {
    "$paragraph" "$@" > "$work/whole" || return 1
    n=1 refused=0
    while [ "$n" -le 5000 ]; do
        COUNTED_GROWTHS="$work/count" REFUSED_GROWTH=$n LD_PRELOAD="$work/refuse.so" "$paragraph" "$@" \
            > "$work/answer" 2> "$work/said"
        status=$?
        if [ "$status" -eq 1 ] && [ ! -s "$work/answer" ] && grep -q '^error: .*out of memory$' "$work/said"; then
            refused=$((refused + 1))
        elif [ "$status" -ne 0 ] || ! cmp -s "$work/answer" "$work/whole"; then
            echo "fill_paragraph, growth $n refused: status $status and this answer:"
            cat "$work/answer" "$work/said"
            return 1
        elif [ "$(cat "$work/count")" -lt "$n" ]; then
            echo "refused growths: $refused of fill_paragraph's $((n - 1)) ended it, growth $n isn't reached"
            [ "$refused" -gt 0 ]
            return
        fi
        n=$((n + 1))
    done
    echo "fill_paragraph: no run had no such growth"
    return 1
}

fonts="crates/fontshape/data/tiny.ttf crates/fill_paragraph/data/tall.ttf"
text=$(printf 'A\342\227\214B \327\220 A\nA')
refuse_paragraph $fonts --width=1500 --carets --text="$text" || exit 1
refuse_paragraph $fonts --width=1500 --svg --text="$text" || exit 1
