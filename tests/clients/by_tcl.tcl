# Runs the lines on standard input by Tcl's mysqltcl, and prints the outcome of each, with an empty line after it.
# Usage: by_tcl.tcl PORT USER PASSWORD DATABASE
package require mysqltcl
lassign $argv port user password database

proc value {it} {
    set text {}
    foreach each [split [encoding convertto utf-8 $it] {}] {
        scan $each %c code
        append text [expr {$code < 0x20 || $code > 0x7e || $each in {' \\} ? [format {\x%02x} $code] : $each}]
    }
    return $text
}

proc shown_rows {rows} {
    set lines [lmap row $rows { join [lmap it $row { value $it }] | }]
    return [list {*}$lines "rows [llength $rows]"]
}

proc connected {} {
    global port user password database
    # else NULL is an empty text
    set ::mysqlstatus(nullvalue) NULL
    return [mysql::connect -host 127.0.0.1 -port $port -user $user -password $password -db $database]
}

proc refusal {message} { return "ERROR $::mysqlstatus(code): [regsub {^mysql::?\w*(/db server)?: } $message {}]" }

# These calls raise no error: their result is a refusal's message.
proc told {message} { return [list [expr {$message eq {} ? {ok 0} : "in silence [refusal $message]"}]] }

proc run {connection line} {
    switch -glob -nocase -- $line {
        @off { return [told [mysql::autocommit $connection 0]] }
        @on { return [told [mysql::autocommit $connection 1]] }
        @commit { return [told [mysql::commit $connection]] }
        @rollback { return [told [mysql::rollback $connection]] }
        @ping { return [expr {[mysql::ping $connection] ? {{ok 0}} : {{ERROR ping}}}] }
        {@use *} {
            mysql::use $connection [string range $line 5 end]
            return {{ok 0}}
        }
        @begin { set line BEGIN }
        select* { return [shown_rows [mysql::sel $connection $line -list]] }
    }
    return [list "ok [mysql::exec $connection $line]"]
}

proc outcome {connection line} {
    if {[catch { run $connection $line } lines]} { return [list [refusal $lines]] }
    return $lines
}

fconfigure stdin -encoding utf-8
if {[catch { set client [connected] } message]} {
    puts [refusal $message]
    exit 1
}
while {[gets stdin line] >= 0} {
    if {[string match {@other *} $line]} {
        if {![info exists other]} { set other [connected] }
        set lines [outcome $other [string range $line 7 end]]
        outcome $other COMMIT
    } else {
        set lines [outcome $client $line]
    }
    puts [join $lines \n]\n
}
