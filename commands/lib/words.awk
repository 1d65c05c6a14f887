# Answers first, then the trace: prints each answer beside its cycle and says what it means, of a write also what it asks for. What a write
# means hangs on the phase, which follows from the lines and answers so far: RP# low and VPP low cut, a refused cycle has not happened, and
# the status tells what starts, ends and is suspended. Where the two do not fit the phase is none, and no write is named until a reset.
BEGIN {
    refusal["04"] = "a level that is none on this cycle"
    refusal["05"] = "the address is past the array"
    refusal["07"] = "the byte written is no command here"
    refusal["08"] = "an array read in the block whose erase is suspended"
    refusal["09"] = "an identifier read elsewhere than at 0000 and 0001"
    kind["R"] = "read"; kind["W"] = "write"; kind["I"] = "idle"
    rp[0] = "RP# low"; rp[1] = ""; rp[2] = "RP# at V_HH"
    command["FF"] = "read array"; command["90"] = "read identifier"; command["70"] = "read status"; command["50"] = "clear the error bits"
    command["20"] = "erase set-up"; command["40"] = "program set-up"; command["B0"] = "nothing to suspend: read array"
    running["program busy"] = "ignored while a program runs"; running["erase busy"] = "ignored while an erase runs"
    running["suspended"] = "ignored while an erase is suspended"
    phase = "idle"
}

# a status byte's bits in words
function bit(value, weight) { return int(value / weight) % 2 }
function number(ss) { return 16 * (index("0123456789ABCDEF", substr(ss, 1, 1)) - 1) + index("0123456789ABCDEF", substr(ss, 2, 1)) - 1 }
function status(value, out) {
    out = bit(value, 128) ? "ready" : "busy"
    if (bit(value, 64)) out = out ", erase suspended"
    if (bit(value, 32) && bit(value, 16)) out = out ", wrong second write"
    else if (bit(value, 32)) out = out ", erase error"
    else if (bit(value, 16)) out = out ", program error"
    if (bit(value, 8)) out = out ", VPP low"
    return out
}
function block(address) { return address >= "3C00" ? 0 : address >= "3A00" ? 1 : address >= "3800" ? 2 : 3 }

# the phase that a cycle's own write meets: VPP low cuts, what has ended has ended; S is 1, so a suspend is over in the next cycle
function met(vpp, ready) {
    if (phase ~ /awaited|idle/ || phase == "") return phase
    if (vpp <= 6500) return "idle"
    if (phase ~ /busy/ && ready) return "idle"
    return phase == "suspending" ? "suspended" : phase
}

# what a write asks for in that phase; sets `after`, the phase that it leaves
function asks(at, byte, address, ready) {
    after = at
    if (at == "idle") {
        if (byte == "20") after = "erase awaited"
        if (byte == "40") after = "program awaited"
        return command[byte]
    }
    if (at ~ /awaited/) after = ready ? "idle" : at == "erase awaited" ? "erase busy" : "program busy"
    if (at == "program awaited") return "data " byte " of a program at " address (ready ? ", nothing starts" : ", it starts")
    if (at == "erase awaited" && byte == "D0") return "erase confirm in block " block(address) (ready ? ", nothing starts" : ", it starts")
    if (at == "erase awaited") return "no erase confirm, nothing starts"
    if (at == "erase busy" && byte == "B0") { after = "suspending"; return "erase suspend" }
    if (at == "suspended" && byte == "D0") { after = "erase busy"; return "erase resume" }
    if (at == "suspended" && byte ~ /FF|70/) return command[byte]
    return running[at]
}

# the phase after a cycle that was not refused, and what a write of it asks for
function follow(value, ready, asked) {
    ready = bit(value, 128)
    if ($2 == 0) { phase = "idle"; return $1 == "W" ? "not heard, RP# is low" : "" }
    phase = met($4, ready)
    if ($1 == "W" && phase != "") { asked = asks(phase, $6, $5, ready); phase = after }
    if (ready == (phase ~ /busy|suspending/) || bit(value, 64) != (phase == "suspended")) { phase = ""; asked = "" }
    return asked
}

FNR == NR { answer[FNR] = $0; total = FNR; next }
FNR > total || answer[FNR] ~ /^\?/ { exit }
{
    cycle = kind[$1]
    if ($1 == "W") cycle = cycle " " $6
    if ($1 != "I") cycle = cycle " at " $5
    if (rp[$2] != "") cycle = cycle ", " rp[$2]
    if ($3 == 1) cycle = cycle ", OE# at V_HH"
    split(answer[FNR], part, " ")
    asked = part[1] == "X" ? "" : follow(number(part[3]))
    if (part[1] == "D") meaning = "gave " part[2]
    else if (part[1] == "N") meaning = asked == "" ? "no data" : asked
    else meaning = "refused by " (part[2] + 0) ", " refusal[part[2]] ", and nothing happened"
    printf "%4d  %s  %s  %s, VPP %d mV: %s; %s\n", FNR, $0, answer[FNR], cycle, $4, meaning, status(number(part[3]))
}
END { if (answer[total] ~ /^\?/) printf "%4d  %s\n", total, answer[total] }
