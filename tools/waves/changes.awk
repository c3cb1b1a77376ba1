# What a value change dump says: its time unit, `TIME NAME VALUE` for each value that a variable takes, and `TIME end`.
/^\$timescale/, /\$end/ { unit = unit $0 }
/^\$var/ { name[$4] = $5 }
/^#/ { time = substr($0, 2) }
/^[01xz]/ { print time, name[substr($0, 2)], substr($0, 1, 1) }
END { gsub(/[ \t]/, "", unit); print unit; print time, "end" }
