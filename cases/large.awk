# Cases that are too large to be kept. For the case `name` this writes its scenario, its journal and how it ends into the
# files of those names in the folder `made`, all by rules. Without a name it prints the names of the cases.

# Puts a line into the journal, where its words find room: there may be 16,777,216 of them.
function tell(line) {
    if (full) return
    words += split(line, parts, " ")
    if (words > 16777216) full = 1
    else print line > journal
}

# A command: its line of the scenario, and the one with which it begins.
function order(command) {
    print command > scenario
    tell("do " command)
}

function birth_of_host(pool, blocks,   line, i) {
    order("pool " pool)
    order("host " blocks " ns")
    line = "born 0 host 0 ns"
    for (i = 0; i < blocks; i++) line = line " " i
    tell(line)
    tell("admitted 0")
}

# A pool of 4,096 blocks, of which the host has the first ones.
function show_pool(blocks,   i) {
    order("show pool")
    for (i = 0; i < 4096; i++) tell("block " i (i < blocks ? " lent 0" : " free"))
}

# So many times the pool is shown, and a delivery over no channel is asked for.
function shows(blocks, pools, links,   i) {
    birth_of_host(4096, blocks)
    for (i = 0; i < pools; i++) show_pool(blocks)
    for (i = 0; i < links; i++) {
        order("deliver 0 0 1")
        tell("refused NoLink")
    }
}

# 1,024 processes, one more, and one of an enclave that doesn't live.
function processes(   i) {
    birth_of_host(1, 1)
    for (i = 1; i <= 1024; i++) {
        order("proc 0 1 1")
        tell("proc 0 " i " 1 1")
    }
    order("proc 0 1 1")
    tell("refused TooMany")
    order("proc 1 1 1")
    tell("refused NoEnclave")
}

function boot(parent, child) {
    order("boot cokernel under " parent " blocks 1")
    tell("born " child " cokernel " parent " - " child)
    tell("sent " child " " parent " query " child " 65535 0")
}

# A record of 16 bytes goes over.
function took(from, to) {
    tell("took " from " " to " 16")
    tell("got " from " " to)
}

# A child asks and is told the way.
function asks(parent, child) {
    took(child, parent)
    tell("sent " parent " " child " here " parent " 65535 0")
}

function learns(parent, child) {
    took(parent, child)
    tell("way " child " " parent)
    tell("sent " child " " parent " register " child " 65535 0")
}

# 255 children, one more, and the records of the last one. No block is free for the one more, which is asked later.
function children(   i) {
    birth_of_host(256, 1)
    for (i = 1; i <= 255; i++) boot(0, i)
    order("boot cokernel under 0 blocks 1")
    tell("refused TooMany")
    order("deliver 255 0 16")
    asks(0, 255)
    order("deliver 0 255 16")
    learns(0, 255)
    order("deliver 255 0 16")
    took(255, 0)
    tell("back 0 255 255")
    tell("route 0 255 255")
    tell("sent 0 255 admit 0 255 0")
    order("deliver 0 255 16")
    took(0, 255)
    tell("admitted 255")
}

# A chain of 256 enclaves, each found over all those before it: its register goes up, and its admit down.
function chain(   child, i) {
    birth_of_host(256, 1)
    for (child = 1; child <= 255; child++) {
        boot(child - 1, child)
        # The parent knows the way, so it sends no query.
        order("settle 10000")
        asks(child - 1, child)
        learns(child - 1, child)
        for (i = child - 1; i >= 0; i--) {
            took(i + 1, i)
            tell("back " i " " child " " i + 1)
            if (i > 0) tell("sent " i " " i - 1 " register " child " 65535 0")
        }
        for (i = 0; i < child; i++) {
            if (i > 0) took(i - 1, i)
            tell("route " i " " child " " i + 1)
            tell("sent " i " " i + 1 " admit 0 " child " 0")
        }
        took(child - 1, child)
        tell("admitted " child)
        tell("settled " 2 * child + 2)
    }
}

# A make, but for what comes between its issue and its answer.
function issue(e, region, call) {
    order("make " e " 1 " region " 0600")
    tell("issue " e " 1 " call)
}

function answer(e, call, segid) {
    tell("named " e " " call " " segid)
    tell("answer " e " 1 " call " segid " segid)
}

# A record of so many bytes goes over, and what the receiver sends on.
function passed(from, to, bytes, next_one, sent) {
    tell("took " from " " to " " bytes)
    tell("got " from " " to)
    if (sent != "") tell("sent " to " " next_one " " sent)
}

# A segment over the whole chain: its request goes up through each enclave and its name down, and so does its end.
function far(   line, i) {
    chain()
    order("proc 255 7 7")
    tell("proc 255 1 7 7")
    order("alloc 255 1 1 64")
    line = "alloc 255 1 1"
    for (i = 0; i < 64; i++) line = line " " 255 * 64 + i
    tell(line)
    issue(255, "4096 262144", 1)
    tell("sent 255 254 namereq 255 65535 1")
    order("settle 509")
    for (i = 254; i > 0; i--) passed(i + 1, i, 16, i - 1, "namereq 255 65535 1")
    passed(1, 0, 16)
    tell("drew 255 1 1")
    tell("sent 0 1 named 0 255 1 1")
    for (i = 1; i < 255; i++) passed(i - 1, i, 24, i + 1, "named 0 255 1 1")
    tell("waiting 509")
    order("show names")
    tell("name 1 255")
    order("alloc 255 1 65 1")
    tell("refused Busy")
    order("settle 10000")
    passed(254, 255, 24)
    answer(255, 1, 1)
    tell("settled 1")
    order("alloc 255 1 65 1")
    tell("refused NoFrames")
    order("remove 255 1 1")
    tell("remove 255 1")
    tell("sent 255 254 unname 255 65535 1 1")
    order("settle 10000")
    for (i = 254; i > 0; i--) passed(i + 1, i, 24, i - 1, "unname 255 65535 1 1")
    passed(1, 0, 24)
    tell("unnamed 1")
    tell("settled 255")
    order("show names")
}

# A segment at its most pages, 4,096, and one of a page more. Then 1,000 segments of one page, of which each second one is removed.
function segments(   line, i) {
    birth_of_host(65, 65)
    order("proc 0 7 7")
    tell("proc 0 1 7 7")
    order("alloc 0 1 1 4096")
    line = "alloc 0 1 1"
    for (i = 0; i < 4096; i++) line = line " " i
    tell(line)
    order("alloc 0 1 4097 1")
    tell("alloc 0 1 4097 4096")
    issue(0, "4096 16777216", 1)
    tell("drew 0 1 1")
    answer(0, 1, 1)
    issue(0, "8192 16777216", 2)
    tell("drew 0 2 2")
    answer(0, 2, 2)
    order("make 0 1 4096 16781312 0600")
    tell("refused TooLarge")
    for (i = 3; i <= 1002; i++) {
        issue(0, 4096 * i " 4096", i)
        tell("drew 0 " i " " i)
        answer(0, i, i)
    }
    for (i = 2; i <= 1002; i += 2) {
        order("remove 0 1 " i)
        tell("remove 0 " i)
        tell("unnamed " i)
    }
    order("show names")
    for (i = 1; i <= 1002; i += 2) tell("name " i " 0")
}

BEGIN {
    scenario = made "/scenario"
    journal = made "/journal"
    if (name == "") print "processes children chain far segments words_met words_passed words_at_a_command words_of_two_blocks"
    else if (name == "processes") processes()
    else if (name == "children") children()
    else if (name == "chain") chain()
    else if (name == "far") far()
    else if (name == "segments") segments()
    # 15 + 1,364 * 12,292 = 16,766,303 words, and 10,913 = 1,559 * 7 more fit.
    else if (name == "words_met") shows(1, 1364, 1559)
    # The last line that fits is that of block 3,635.
    else if (name == "words_passed") shows(1, 1365, 0)
    # Not even the first line of one command more fits.
    else if (name == "words_at_a_command") shows(1, 1364, 1560)
    # The last line that fits is that of block 3,180.
    else if (name == "words_of_two_blocks") shows(2, 1366, 0)
    else exit 1
    if (name == "") exit
    print (full ? "xemem: limit Words 16777216\nexit 5" : "exit 0") > (made "/end")
}
