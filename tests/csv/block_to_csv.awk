# A block (form 9) as a line of CSV, in the columns of bindings/heard_csv.columns. Run with -F=.
function sign(text) {
    return substr(text, 1, 1) == "-" ? "-" : ""
}

function degrees(text,    parts) {
    split(substr(text, 2), parts, ".")
    return sign(text) (parts[1] + 0) "." parts[2]
}

# The block has degrees and minutes in a row, +4721.00; CSV has minutes alone, 47 times 60 more.
function minutes(text,    parts, whole) {
    split(substr(text, 2), parts, ".")
    whole = parts[1] + 0
    return sign(text) (int(whole / 100) * 60 + whole % 100) "." parts[2]
}

# The library's rule for two digits, read here a second time and not asked of it.
function century(yy) {
    return yy >= 80 ? "19" : "20"
}

{ value[$1] = $2 == "-" ? "" : $2 }

END {
    date = value["date"]
    if (date ~ /^day-/) {
        day = substr(date, 5) + 0
        date = ""
    } else if (date != "") {
        date = century(substr(date, 1, 2) + 0) date
    }
    if (value["fraction"] != "")
        fraction = "0." value["fraction"]
    place = ",,"
    in_minutes = ","
    count = split(value["position"], parts, " ")
    if (count == 3)
        place = degrees(parts[1]) "," degrees(parts[2]) "," (parts[3] + 0)
    else if (count == 2)
        in_minutes = minutes(parts[1]) "," minutes(parts[2])
    line = date "," day "," value["time"] "," fraction "," value["channel"]
    split("sync fix utc summer change leap offset", keys, " ")
    for (i = 1; i <= 7; i++)
        line = line "," value[keys[i]]
    print line "," place "," value["dsp"] "," value["lsp"] "," in_minutes
}
