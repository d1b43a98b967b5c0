function milligrams(text, parts) {
    split(text, parts, ".")
    return parts[1] * 1000 + substr(parts[2] "000", 1, 3)
}
function grams(mass) { return sprintf("%.0f.%03d", int(mass / 1000), mass % 1000) }
function say(text) { print text; fflush() }
function signal(batch, net) {
    if (inadequate[batch] > 0) return "reject held"
    if (population[batch] == 10000) return "reject full"
    if (net < t2) return "reject inadequate"
    if (net < t1 && 40 * nonstandard[batch] > population[batch]) return "reject allowance"
    return "pass"
}
function judge(batch, gross, net, told) {
    net = gross - tare[product[batch]]
    told = signal(batch, net)
    if (told == "pass") {
        passed++
        passed_gross += gross
        population[batch]++
        net_sum[batch] += net
        nonstandard[batch] += net < t1
        inadequate[batch] += net < t2
    } else {
        rejected++
        rejected_gross += gross
    }
    return told
}
BEGIN { t1 = 241000; t2 = 232000 }
{ rows++ }
$1 == "weigh" { say(rows " " judge(lane[$2], milligrams($3))); next }
$1 == "tare" { tare[$2] = milligrams($4) }
$1 == "open" { product[$2] = $3; running++ }
$1 == "start" { lane[$2] = $3 }
$1 == "stop" { delete lane[$2] }
$1 == "end" { running--; ended++ }
{ say(rows " ok") }
END {
    print "rows " rows
    print "readings " passed + rejected " gross " grams(passed_gross + rejected_gross)
    print "passed " passed + 0 " gross " grams(passed_gross)
    print "rejected " rejected + 0 " gross " grams(rejected_gross)
    print "sampled 0 gross 0.000\nvoided 0 gross 0.000"
    print "batches running " running + 0 " ended " ended + 0 " drawn 0 closed 0"
}
