# Whether lines are what `serve` may print where memory was refused to it: status 0 or 1. Beside tests/refuse-each.sh.
#
#     awk -v agents=N -v status=0|4 -v reach=one|all -f tests/served.awk SCRIPT KNOWN GIVEN
#
# KNOWN is an output with ample memory. Of status 0 all lines have to be there, of status 4 those of GIVEN are the first ones.
# A job may end as a job of the same words does in KNOWN, or undecided, because memory ran out (U7) or another job was in
# the way (U2, U3, U4). Where something was not made, a job may not find it (F4), and a list be shorter; where a job ended
# otherwise, or agents work at once, a read gives what any job writes, and a sweep finds locks. What is certified are the steps
# of all jobs, less those that were not served: at most one where one allocation is refused, none with ample memory (`sure`).
function ending(line) { sub(/^[0-9]+ [0-9]+ /, "", line); return line }

function is_part(list, whole,    names, count, i) {
    if (list == "-") return 1
    count = split(list, names, ",")
    for (i = 1; i <= count; i++)
        if (index("," whole ",", "," names[i] ",") == 0) return 0
    return 1
}

# whether job n may end so
function may_end(n, end,    word, op) {
    if ((asks[n], end) in ends) return 1
    split(end, word, " ")
    if (end ~ /^undecided U2 server [0-9]+ holder [0-9]+$/) return (!sure || agents > 1) && word[4] < servers && word[6] % 64 < agents
    if (end ~ /^undecided U3 server [0-9]+$/) return (!sure || agents > 1) && word[4] < servers
    if (end == "undecided U4") return !sure || agents > 1
    if (end == "undecided U7") return !sure
    if (asks[n] ~ /^sweep/) return (!sure || agents > 1) && end ~ /^swept [0-9] [0-9] [0-9]$/
    if ((agents > 1 || changed) && end ~ /^answered read [^ ]+$/ && asks[n] ~ / read [^ ]+$/) return word[3] == "-" || word[3] in written
    if (!lost) return 0
    if (end ~ /^refused F4 op [0-9]+$/) return word[4] >= 1 && word[4] <= ops[n]
    return end ~ /^answered list [^ ]+$/ && known[n] ~ /^answered list / && is_part(word[3], substr(known[n], 15))
}

FILENAME == ARGV[1] {
    if ($1 == "servers") servers = $2
    if ($1 != "do" && $1 != "sweep") next
    asks[jobs + 0] = $0
    ops[jobs++] = gsub(/ ; /, " ; ") + 1
    for (i = 1; i < NF; i++) if ($i == "write") written[$(i + 2)] = 1
    next
}
FILENAME == ARGV[2] {
    if ($1 ~ /^[0-9]+$/) { known[$1] = ending($0); ends[asks[$1], known[$1]] = 1 }
    next
}
certified { wrong = 1 }
$1 == "certified" {
    certified = 1
    if ($0 !~ /^certified [0-9]+ steps$/ || status == 4) wrong = 1
    unserved = steps - $2
    if (unserved < lacks || unserved > (sure ? 0 : reach == "one" ? 1 : steps)) wrong = 1
    next
}
{
    end = ending($0)
    if ($0 !~ /^[0-9]+ [0-9]+ / || $1 != told + 0 || $2 < 1 || !may_end(told + 0, end)) wrong = 1
    if (end ~ /^undecided U7/) lacks++
    if (known[told + 0] != end) changed = 1
    if (known[told + 0] ~ /made/ && end !~ /made/) lost = 1
    steps += $2
    told++
}
END { exit wrong || told > jobs || (status != 4 && (told < jobs || !certified)) }
