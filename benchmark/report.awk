# Reads what ./bench measured and writes docs/BENCHMARK.md:
#   count|MAX|call|library|instructions    time|MAX|call|library|nanoseconds
#   thumb|function|code|stack|stack with callees    thumb in all|code

function commas(n,    s) {
    s = sprintf("%d", n)
    while (match(s, /[0-9][0-9][0-9][0-9]($|,)/))
        s = substr(s, 1, RSTART) "," substr(s, RSTART + 1)
    return s
}

function plain(kind, n) { return kind == "count" ? commas(n + 0.5) : sprintf("%.1f", n) }

# The five calls of an operation that nothing disturbs.
function whole(kind, max, operation, library,    i, sum) {
    for (i = 1; i <= 4; i++)
        sum += v[kind, max, operation ", " parts[i], library]
    return sum + v[kind, max, operation ", stage 5, " (operation ~ /push/ ? "PUSHED" : "POPPED"), library]
}

function cell(kind, proved, ordinary) {
    if (ordinary <= 0) return " not measured |"
    return sprintf(kind == "count" && proved > ordinary ? " **%.2f** (%s / %s) |" : " %.2f (%s / %s) |", \
        proved / ordinary, plain(kind, proved), plain(kind, ordinary))
}

function table(kind,    i, j) {
    print "\n| call | MAX 2 | MAX 62 | MAX 4,094 |\n|---|---|---|---|"
    for (i = 1; i <= 4; i++) {
        printf "| a whole %s, mean of its five calls |", operations[i]
        for (j = 1; j <= 3; j++)
            printf "%s", cell(kind, whole(kind, sizes[j], operations[i], "pds") / 5, \
                whole(kind, sizes[j], operations[i], "base") / 5)
        print ""
    }
    for (i = 1; i <= calls; i++) {
        printf "| %s |", call[i]
        for (j = 1; j <= 3; j++)
            printf "%s", cell(kind, v[kind, sizes[j], call[i], "pds"], v[kind, sizes[j], call[i], "base"])
        print ""
    }
}

function goal(text, measured, met) { printf "| %s | %s | %s |\n", text, measured, met ? "met" : "not met" }

# The whole operation with the worst ratio.
function judge_whole(    i, j, r, worst, where) {
    for (i = 1; i <= 4; i++)
        for (j = 1; j <= 3; j++) {
            r = whole("count", sizes[j], operations[i], "pds") / whole("count", sizes[j], operations[i], "base")
            if (r > worst) { worst = r; where = operations[i] }
        }
    goal("a push and a pop, start to answer: at most 0.60 of the ordinary version's instructions", \
        sprintf("%.3f at worst (%s)", worst, where), worst <= 0.60)
}

function judge_single(    i, j, p, b, over, above, worst, where) {
    for (i = 1; i <= calls; i++) {
        over = 0
        for (j = 1; j <= 3; j++) {
            p = v["count", sizes[j], call[i], "pds"]; b = v["count", sizes[j], call[i], "base"]
            if (p / b > worst) { worst = p / b; where = call[i] ", at MAX " commas(sizes[j]) }
            if (p > b) over = 1
        }
        above += over
    }
    goal("no single call above 1.00", sprintf("%.2f at worst (%s); %d of %d calls above", worst, where, above, calls), !above)
}

function judge_growth(    i, grown, names) {
    for (i = 1; i <= calls; i++)
        if (call[i] !~ /^lay/ && (v["count", 62, call[i], "pds"] > v["count", 2, call[i], "pds"] || \
            v["count", 4094, call[i], "pds"] > v["count", 2, call[i], "pds"])) { grown++; names = names " " call[i] ";" }
    goal("no growth with MAX, but for laying, which writes every word", grown ? grown " calls grow:" names : "none grows", !grown)
}

function judge_thumb(    f, most, where) {
    for (f in deep)
        if (f ~ /^pds_/ && deep[f] > most) { most = deep[f]; where = f }
    goal("Cortex-M: no call above 256 bytes of stack, with all that it calls", most " bytes (`" where "`)", most > 0 && most <= 256)
    goal("Cortex-M: the four calls within 4,096 bytes of code, with all that they call", commas(all) " bytes", \
        all > 0 && all <= 4096)
}

BEGIN {
    split("start|stage 1|stage 2 to 4|stage 4 won", parts, "|")
    split("right push|right pop|left push|left pop", operations, "|")
    split("2|62|4094", sizes, "|")
}

$1 == "thumb" { functions[++lines] = $2; code[$2] = $3; own[$2] = $4; deep[$2] = $5; next }
$1 == "thumb in all" { all = $2; next }
{
    v[$1, $2, $3, $4] = $5
    if (!($3 in known)) { known[$3] = 1; call[++calls] = $3 }
}

END {
    print "# Benchmark\n"
    print "Written by `./bench` on " date ": " machine "; " tools ".\n"
    print "The proved library (`tools/build-lib host`) beside [an ordinary careful Rust " \
        "version](../benchmark/baseline/src/lib.rs) of the same four calls: safe, in place, every check of document 01 in " \
        "its order, built for release with link-time optimisation. Each kind of call is made by both on the same bytes, " \
        "on images with 4 parties; both must answer alike and leave the same bytes " \
        "([benchmark/calls.c](../benchmark/calls.c)).\n"
    print "## Goals\n"
    print "Judged by instructions, which are the same in every run on one machine; time is given beside them.\n"
    print "| goal | measured | |\n|---|---|---|"
    judge_whole()
    judge_single()
    judge_growth()
    judge_thumb()
    print "\n## Instructions\n"
    print "Ratio, then proved / ordinary: every instruction from entering the call to leaving it, what it calls included " \
        "(valgrind's callgrind). A ratio above 1.00 is bold. A step goes by the stage it is made at and what came of it: " \
        "the stage that follows, or the answer. A whole operation is a start and four steps with a true hint. A refused " \
        "call goes by its number. Laying clears bytes by the C library's memset, whose one repeated instruction callgrind " \
        "counts once for each byte from some 2 KiB on."
    table("count")
    print "\n## Time\n"
    print "Ratio, then nanoseconds, proved / ordinary: what one call adds to a loop that puts back the bytes it changed, " \
        "the least of 301 rounds in which the two take turns."
    table("time")
    print "\n## Cortex-M\n"
    print "Bytes of code and of stack for `thumbv7em-none-eabi` at -Os, by the compiler's own account. The stack of memset, which " \
        "whoever links the archive brings, is not in it.\n"
    print "| function | code | its own stack | with all that it calls |\n|---|---|---|---|"
    for (i = 1; i <= lines; i++)
        printf "| `%s` | %s | %d | %d |\n", functions[i], commas(code[functions[i]]), own[functions[i]], deep[functions[i]]
    printf "| in all | %s | | |\n", commas(all)
}
