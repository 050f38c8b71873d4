# Runs redis' own tests of streams against a server that runs already, for tools/live/peers.
#
# usage: tclsh peers.tcl SOURCE HOST PORT 'COMMAND ..' FILE..
#
# A case that sends one of the commands, or starts a server of its own, is left out. A line for each case: 'pass',
# 'fail' or 'left out', its name, and why, between tabs.
lassign $argv source host port wanting
set files [lrange $argv 4 end]
cd $source
source tests/support/redis.tcl
source tests/support/util.tcl
source tests/support/test.tcl

proc said {outcome name {why ""}} {
    set spaces [list \n " " \r " " \t " "]
    puts "$outcome\t[string map $spaces $name]\t[string map $spaces [string range $why 0 199]]"
    flush stdout
}

proc connected {deferred} {
    set one [redis $::host $::port $deferred 0]
    lappend ::connections $one
    return $one
}
proc begin_anew {} {
    foreach one $::connections { catch {$one close} }
    set ::connections {}
    set ::client [connected 0]
}
set connections {}
begin_anew

# A client whose replies are read later. A read with BLOCK is given time to begin its wait.
proc deferred {one args} {
    set blocks [expr {[lsearch -nocase $args block] >= 0}]
    if {$blocks} { set before [s blocked_clients] }
    set result [uplevel 1 [list $one {*}$args]]
    for {set turn 0} {$blocks && $turn < 12 && [s blocked_clients] <= $before} {incr turn} { after 25 }
    return $result
}

# What the tests call.
proc redis_client {args} { connected 0 }
proc redis_deferring_client {args} {
    set one [connected 1]
    interp alias {} deferred_$one {} deferred $one
    return deferred_$one
}
proc srv {args} { expr {[lindex $args end] eq "client" ? $::client : 0} }
proc r {args} {
    if {[string is integer -strict [lindex $args 0]]} { set args [lrange $args 1 end] }
    $::client {*}$args
}
proc s {args} { getInfoProperty [$::client info] [lindex $args end] }
proc wait_for_blocked_client {args} { wait_for_blocked_clients_count 1 }
proc wait_for_blocked_clients_count {count args} {
    for {set turn 0} {$turn < 40 && [s blocked_clients] != $count} {incr turn} { after 25 }
    if {$turn == 40} { error "no client waits" }
}

# Which of the commands that the server has not this code sends, itself or by a procedure of the tests.
proc wants {code} {
    set found {}
    # ('jagyerti serve' knows these, and no other of CONFIG)
    regsub -all {config (?:resetstat|set stream-node-max-entries)\M} $code "" code
    foreach name [info procs] {
        if {$name ni $::here && [regexp "\\m$name\\M" $code]} { append code "\n" [info body $name] }
    }
    foreach {_ word} [regexp -all -inline {(?:\mr|\$r\w*)\s+([A-Za-z]+)} $code] {
        set word [string toupper $word]
        if {$word in $::wanting && $word ni $found} { lappend found $word }
    }
    return $found
}

proc start_server {options code} {
    array set given [concat {tags {} overrides {}} $options]
    if {[string match *external:skip* $given(tags)]} {
        set why "starts a server of its own"
    } elseif {$given(overrides) ne {} && [string match *needs:debug* $given(tags)]} {
        set why "sends DEBUG to a server with settings of its own"
    } else {
        catch {$::client flushall}
        return [uplevel 1 $code]
    }
    foreach {_ braced quoted} [regexp -all -inline {\mtest (?:\{([^\n]*?)\}|"([^\n]*?)") \{} $code] {
        said "left out" $braced$quoted $why
    }
}

proc test {name code {wanted undefined} {tags {}}} {
    set missing [wants $code]
    if {[string match *external:skip* $tags]} { return [said "left out" $name "is for a server that the suite starts"] }
    if {$missing ne {}} { return [said "left out" $name "sends [join $missing {, }]"] }
    set outcome [list pass $name]
    if {[catch {uplevel 1 $code} result]} {
        set outcome [list fail $name $result]
    } elseif {$wanted ne "undefined" && $wanted ne $result && ![string match $wanted $result]} {
        set outcome [list fail $name "wanted '$wanted', got '$result'"]
    }
    said {*}$outcome
    begin_anew
}

set here [info procs]
foreach file $files { source tests/unit/type/$file }
