# Makes a man page of what a program prints for --help: `awk -v name=.. -v what=.. -v version=.. -f page.awk`.
function plain(text) {
    gsub(/\\/, "\\e", text)
    gsub(/-/, "\\-", text)
    return (text ~ /^[.']/ ? "\\&" : "") text
}
BEGIN {
    print ".TH " toupper(name) " 1 \"\" \"wgsl " version "\"\n.SH NAME\n" name " \\- " plain(what) "\n.SH SYNOPSIS\n.nf"
}
sub(/^usage: /, "") || !described && sub(/^ +/, "") { print plain($0); next }
/^$/ && !described { print ".fi\n.SH DESCRIPTION"; described = 1; next }
/^$/ { print ".PP"; next }
sub(/^Exit status: /, "") { print ".SH EXIT STATUS" }
sub(/^      +/, "") { print ".br\n" plain($0); next }
sub(/^  /, "") {
    at = match($0, /  +/)
    print ".TP\n.B " plain(at ? substr($0, 1, at - 1) : $0)
    if (at) print plain(substr($0, at + RLENGTH))
    next
}
{ print plain($0) }
END { print ".SH SEE ALSO\n.BR wgsl \"(1), \" wgsl\\-check \"(1), \" wgsl\\-layout \"(1), \" wgsl\\-ask \"(1), \" wgsl_check (1)" }
