# Makes a plot of tools/growth's rows: records; nanoseconds a call in a full store, the Rust's and in place; the same with 256 spans; microseconds a
# setup, the Rust's and in place; microseconds an audit, of spans in order and of a full store. On the left calls, on the right setup and audit with
# both axes logarithmic.
function log2(x) { return log(x) / log(2) }
function grouped(n,    s) { for (s = ""; n >= 1000; n = int(n / 1000)) s = sprintf(",%03d", n % 1000) s; return n s }
# where a number of records stands in the panel that begins at `left`
function across(left, n) { return left + (log2(n) - 10) * wide / 10 }
function calls_up(y) { return bottom - y * high / most }
function times_up(y) { return bottom - (log(y) / log(10) - low) * high / decades }
function line(points, colour, dash) {
    printf "<polyline points=\"%s\" fill=\"none\" stroke=\"%s\" stroke-width=\"2\"%s/>\n", points, colour, dash ? " stroke-dasharray=\"5 4\"" : ""
}
function text(x, y, anchor, colour, words) {
    printf "<text x=\"%.1f\" y=\"%.1f\" text-anchor=\"%s\" fill=\"%s\">%s</text>\n", x, y, anchor, colour, words
}
function rule(x1, y1, x2, y2) {
    printf "<line x1=\"%.1f\" y1=\"%.1f\" x2=\"%.1f\" y2=\"%.1f\" stroke=\"#ddd\"/>\n", x1, y1, x2, y2
}
function key(left, row, colour, dash, words) {
    line(sprintf("%.1f,%.1f %.1f,%.1f", left + 10, top + 16 * row, left + 40, top + 16 * row), colour, dash)
    text(left + 46, top + 16 * row + 4, "start", "#222", words)
}
function columns(left,    n) {
    for (n = 1024; n <= 1048576; n *= 4) {
        rule(across(left, n), top, across(left, n), bottom)
        text(across(left, n), bottom + 16, "middle", "#222", grouped(n))
    }
    text(left + wide / 2, bottom + 34, "middle", "#222", "records")
}
{
    records[NR] = $1
    for (i = 2; i <= 9; i++) {
        value[NR, i] = $i
        if (i <= 5 && $i > greatest) greatest = $i
        if (i > 5 && $i > longest) longest = $i
    }
}
END {
    wide = 370; high = 300; top = 40; bottom = top + high; first = 60; second = 510
    rust = "#b5482a"; port = "#2566a8"; audit = "#2c8a4b"
    step = greatest > 120 ? 50 : 20
    most = (int(greatest / step) + 1) * step
    low = -1
    for (decades = 1; 10 ^ (low + decades) < longest; decades++) continue
    print "<svg xmlns=\"http://www.w3.org/2000/svg\" width=\"940\" height=\"390\" font-family=\"sans-serif\" font-size=\"12\">"
    print "<rect width=\"940\" height=\"390\" fill=\"white\"/>"
    text(first + wide / 2, 22, "middle", "#222", "a call, in nanoseconds")
    text(second + wide / 2, 22, "middle", "#222", "a setup and an audit, in microseconds")
    columns(first)
    columns(second)
    for (y = 0; y <= most; y += step) {
        rule(first, calls_up(y), first + wide, calls_up(y))
        text(first - 6, calls_up(y) + 4, "end", "#222", y)
    }
    for (e = low; e <= low + decades; e++) {
        rule(second, times_up(10 ^ e), second + wide, times_up(10 ^ e))
        text(second - 6, times_up(10 ^ e) + 4, "end", "#222", e < 0 ? "0.1" : grouped(10 ^ e))
    }
    for (i = 2; i <= 9; i++) {
        points = ""
        for (r = 1; r <= NR; r++)
            points = points sprintf("%.1f,%.1f ", across(i <= 5 ? first : second, records[r]), i <= 5 ? calls_up(value[r, i]) : times_up(value[r, i]))
        line(points, i >= 8 ? audit : i % 2 == 0 ? rust : port, i == 4 || i == 5 || i == 8)
    }
    key(first, 1, rust, 0, "the Rust, full store")
    key(first, 2, port, 0, "in place, full store")
    key(first, 3, rust, 1, "the Rust, 256 spans")
    key(first, 4, port, 1, "in place, 256 spans")
    key(second, 1, audit, 0, "audit, in place, full store")
    key(second, 2, audit, 1, "audit, in place, spans in order")
    key(second, 3, rust, 0, "setup, the Rust")
    key(second, 4, port, 0, "setup, in place")
    print "</svg>"
}
