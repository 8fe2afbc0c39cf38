# SPDX-License-Identifier: MIT OR Apache-2.0
# apart.awk -v CALLERS=REGEX -v CALLEE=NAME: of a module's text, in each caller the calls of CALLEE are made, not
# compiled in line, whatever is said of CALLEE itself. It says nothing of what a function does. Ends with 1 where there
# is no such call.
/^define / {
    inside = match($0, /@"[^"]*"\(/) && substr($0, RSTART + 2, RLENGTH - 4) ~ "^(" CALLERS ")$"
}
inside && / call / && index($0, "@\"" CALLEE "\"(") {
    made += sub(/\)$/, ") noinline")
}
{ print }
END { exit !made }
