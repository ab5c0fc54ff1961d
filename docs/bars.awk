# Makes bars of one minute from the lines of `itch trades` of one stock: the first, the highest, the lowest and the last price
# of the printed trades that nothing broke, in 1/10,000 of a currency unit, and their shares. A minute without any has no line.
BEGIN {
    FS = ","
    print "minute,open,high,low,close,shares"
}
FNR > 1 && $9 == "Y" && $10 == "" && $7 > 0 {
    minute = int($2 / 60000000000)
    if (minute != current) {
        bar()
        current = minute
        first = high = low = $6
    }
    high = $6 > high ? $6 : high
    low = $6 < low ? $6 : low
    last = $6
    shares += $7
}
END { bar() }
function bar() {
    if (shares)
        printf "%02d:%02d,%s,%s,%s,%s,%.0f\n", int(current / 60), current % 60, first, high, low, last, shares
    shares = 0
}
