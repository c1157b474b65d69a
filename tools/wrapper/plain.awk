# Whether each key of a catalogue means something, as far as that is seen line by line. The status is 1 where it isn't.
BEGIN {
    known[""] = " version postgres postgres_taken "
    known["[rates]"] = " seq_page rand_page row_cpu sort_cpu merge_cpu hash_cpu group_cpu postgres "
    known["[[table]]"] = " name rows pages postgres postgres_children "
    known["[[table.column]]"] = " name kind width distinct low high postgres postgres_type postgres_scale " \
        "postgres_fractions postgres_nulls postgres_no_key "
    known["[[table.index]]"] = " name keys unique clustered postgres postgres_ordered "
}
{ sub(/^[ \t]+/, ""); sub(/[ \t\r]+$/, "") }
/^(#|$)/ { next }
part == "" && /^version[ \t]*=[ \t]*2[ \t]*(#.*)?$/ {
    known["[[table]]"] = known["[[table]]"] "may_cluster "
    known["[[table.column]]"] = known["[[table.column]]"] "bounds "
}
/^\[/ {
    part = $0
    if (!(part in known)) exit 1
    next
}
{
    key = $0
    sub(/[ \t]*=.*/, "", key)
    if (!index(known[part], " " key " ")) exit 1
}
