# Lines CASE|PART|NUMBER become a row a case, in the order of the cases. bench/README.md says what the columns are. With times=1 the numbers are
# nanoseconds: then nothing is subtracted from a call, since times that are taken apart do not add up, and the columns are fewer.
BEGIN { FS = "|" }

{
    if (!($1 in seen)) {
        seen[$1] = 1
        order[++cases] = $1
    }
    value[$1, $2] = $3
}

# 1234567 as 1,234,567
function grouped(number, text) {
    for (text = sprintf("%d", number); match(text, /[0-9][0-9][0-9][0-9]($|,)/);)
        text = substr(text, 1, RSTART) "," substr(text, RSTART + 1)
    return text
}

function ratio(a, b) {
    return b > 0 ? sprintf("%.2f", a / b) : ""
}

# For copies, and for everything else; what grows a file is a length change.
function goal(name) {
    return name ~ /^(read|write):/ && name !~ /at the end/ ? 1.2 : 1.5
}

function row(a, b, c, d, e, f, g, h, i, j, k, l) {
    printf "| %-43s | %10s | %10s | %11s | %9s | %5s | %9s | %10s | %10s | %11s | %4s | %5s |\n", a, b, c, d, e, f, g, h, i, j, k, l
}

# in bold where it is above the goal
function over(number, most) {
    return number > most ? "**" ratio(number, 1) "**" : ratio(number, 1)
}

function micro(number) {
    return sprintf("%.1f", number / 1000)
}

function times_table(    n, name, nothing, call, rust, plain) {
    printf "| %-43s | %10s | %10s | %11s | %10s | %15s |\n", "call", "library", "the Rust", "call / Rust", "plain", "library / plain"
    print "|---|--:|--:|--:|--:|--:|"
    for (n = 1; n <= cases; n++) {
        name = order[n]
        nothing = value[name, "nothing"]
        call = value[name, "call"] - nothing
        rust = (name, "rust") in value ? value[name, "rust"] - nothing : 0
        # With a plain check before it, where the call has one.
        plain = value[name, "plain"] - nothing + ((name, "check") in value ? value[name, "opening"] : 0)
        asked += rust > 0
        slower += rust > 0 && call > rust
        printf "| %-43s | %10s | %10s | %11s | %10s | %15s |\n", name, micro(call), rust ? micro(rust) : "", rust ? over(call / rust, 1) : "", micro(plain), ratio(call, plain)
    }
    printf "\n%d of %d calls take longer than the Rust's, in bold.\n", slower, asked
}

END {
    if (times) {
        times_table()
        exit
    }
    row("call", "library", "the Rust", "call / Rust", "its check", "share", "act", "act / Rust", "plain", "act / plain", "goal", "whole")
    print "|---|--:|--:|--:|--:|--:|--:|--:|--:|--:|--:|--:|"
    for (n = 1; n <= cases; n++) {
        name = order[n]
        # What the program takes to make the calls is in each part, and cancels out in the act.
        nothing = value[name, "nothing"]
        call = value[name, "call"] - nothing
        plain = value[name, "plain"] - nothing
        checked = (name, "check") in value
        check = checked ? value[name, "check"] - nothing : 0
        act = call - check
        rust = (name, "rust") in value ? value[name, "rust"] - nothing : 0
        above += act > goal(name) * plain
        asked += rust > 0
        slower += rust > 0 && call > rust
        row(name, grouped(call), rust ? grouped(rust) : "", rust ? over(call / rust, 1) : "", checked ? grouped(check) : "",
            checked ? sprintf("%d %%", 100 * check / call + 0.5) : "", checked ? grouped(act) : "", ratio(act, rust), grouped(plain),
            plain ? over(act / plain, goal(name)) : "", goal(name), checked ? ratio(call, plain + value[name, "opening"]) : "")
    }
    printf "\n%d of %d calls take more than the Rust's, %d of %d acts more than their goal: in bold.\n", slower, asked, above, cases
}
