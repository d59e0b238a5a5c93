# Runs the list `prepared` on standard input by Tcl's tdbc::mysql, and prints the outcome of each line, with an empty line after it.
# Usage: by_tdbc.tcl PORT USER PASSWORD DATABASE
package require tdbc::mysql
lassign $argv port user password database

proc connected {} {
    global port user password database
    return [tdbc::mysql::connection new -host 127.0.0.1 -port $port -user $user -passwd $password -db $database]
}

proc value {it isText} {
    if {!$isText} { return $it }
    set text {}
    foreach each [split $it {}] {
        scan $each %c code
        append text [expr {$code < 0x20 || $code > 0x7e || $each in {' \\} ? [format {\x%02x} $code] : $each}]
    }
    return '$text'
}

# The values of JSON, each a type and what it is.
proc values {list} {
    set found {}
    foreach {whole text number} [regexp -all -inline {"((?:[^"\\]|\\.)*)"|(-?\d+|null)} $list] {
        if {$number eq {null}} {
            lappend found {null {}}
        } elseif {$number ne {}} {
            lappend found [list number $number]
        } else {
            lappend found [list text [subst -nocommands -novariables [string map {\\' '} $text]]]
        }
    }
    return $found
}

# tdbc has names for its holes, and types for them.
proc named {text} {
    set parts [split $text ?]
    set named [lindex $parts 0]
    set at 0
    foreach part [lrange $parts 1 end] { append named ":v[incr at]" $part }
    return $named
}

proc executed {statement list} {
    set given {}
    set at 0
    foreach it [values $list] {
        lassign $it kind value
        incr at
        if {$kind eq {null}} continue
        # a bigint has 63 bits and a sign
        $statement paramtype v$at in [expr {$kind ne {number} ? {varbinary} : $value < 1 << 63 ? {bigint} : {decimal}}]
        dict set given v$at $value
    }
    set result [$statement execute $given]
    set columns [$result columns]
    if {$columns eq {}} {
        set lines [list "ok [$result rowcount]"]
    } else {
        set lines {}
        while {[$result nextdict row]} {
            lappend lines [join [lmap it $columns { expr {[dict exists $row $it] ? [value [dict get $row $it] [expr {$it in {name k v}}]] : {NULL}} }] |]
        }
        lappend lines "rows [llength $lines]"
    }
    $result close
    return $lines
}

proc bind {connection list text} {
    set statement [$connection prepare [named $text]]
    try {
        return [executed $statement $list]
    } finally {
        $statement close
    }
}

proc run {connection line} {
    global kept
    if {[regexp {^@(?:bind|long) (\[.*?\]) (.*)} $line - list text]} { return [bind $connection $list $text] }
    if {[regexp {^@keep (.*)} $line - text]} {
        set kept [$connection prepare [named $text]]
        return {{ok 0}}
    }
    if {[regexp {^@kept (.*)} $line - list]} { return [executed $kept $list] }
    switch $line {
        @begin { $connection begintransaction }
        @commit { $connection commit }
        @rollback { $connection rollback }
    }
    return {{ok 0}}
}

proc outcome {connection line} {
    if {![catch { run $connection $line } lines options]} { return $lines }
    lassign [dict get $options -errorcode] - - state - number
    return [list "ERROR $number ($state): $lines"]
}

fconfigure stdin -encoding utf-8
fconfigure stdout -buffering line
set client [connected]
while {[gets stdin line] >= 0} {
    if {[regexp {^@other (.*)} $line - text]} {
        if {![info exists other]} { set other [connected] }
        set lines [outcome $other "@bind \[\] $text"]
    } else {
        set lines [outcome $client $line]
    }
    puts [join $lines \n]\n
}
