# Lists of commands that are drawn from pools, beside a plain machine that keeps whole texts.

load helpers

@test "drawn lists of commands go as a plain machine has it" {
    python3 "$top/tests/model.py" "$program" "$top/tests/data/drawn.rec"
}
