# Evaluates lines for prompted.py: one in double quotes is a statement, with \n for its line ends, one after ? a word whose names are printed,
# another one the halves of a marker. They come by 3. Users give `puts` another meaning, and `chan puts` stays.
namespace eval ::tmhost {
    encoding system utf-8
    variable commands [open /dev/fd/3]
    variable own [open /dev/fd/1 {WRONLY NOCTTY}]
    variable fault $::env(TMHOST_ERROR)
    foreach channel [list $commands $own stdout stderr] { fconfigure $channel -encoding utf-8 -translation lf }
    foreach channel [list $own stdout stderr] { fconfigure $channel -buffering none }

    proc answer {text} {
        variable own
        variable fault
        set code [catch {uplevel #0 $text} value]
        catch { flush stdout }
        switch $code {
            1 { chan puts $own $fault$value }
            3 { chan puts $own "${fault}invoked \"break\" outside of a loop" }
            4 { chan puts $own "${fault}invoked \"continue\" outside of a loop" }
            default { if {$value ne ""} { chan puts $own $value } }
        }
    }

    proc names {word} {
        variable own
        foreach name [concat [info commands ::$word*] [info globals $word*]] {
            if {[regexp {^(?:::)?(\w+)$} $name all own_name]} { chan puts $own $own_name }
        }
    }

    proc lines {} {
        variable commands
        variable own
        while {[chan gets $commands line] >= 0} {
            switch -glob -- $line {
                {"*} { answer [string map {\\n \n \\\\ \\ \\\" \"} [string range $line 1 end-1]] }
                {\?*} { names [string range $line 1 end] }
                default { chan puts $own [string map {{ } {}} $line] }
            }
        }
        exit
    }
    lines
}
