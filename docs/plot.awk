# Draws the lines of `itch tops` as a picture (SVG) that any browser shows: the best bid in green and the best ask in
# red, message by message from left to right, each price as a step that lasts until the next line. The lines of `itch trades`,
# in a file of their own, are drawn over them as blue dots. Prices stand below zero in the picture, so that greater ones are
# higher. Numbers may be too great for %d of some awks.
BEGIN { FS = "," }
FNR == 1 {
    trades = $6 == "price"
    next
}
{
    first = first == "" || $1 < first ? $1 : first
    last = last == "" || $1 > last ? $1 : last
}
# One of no shares, as a cross without orders is, has no price to show.
trades && $7 > 0 { dots = dots "M" $1 " " place($6) "h0" }
!trades {
    step("bid", $3)
    step("ask", $5)
}
END {
    printf "<svg xmlns=\"http://www.w3.org/2000/svg\" viewBox=\"%.0f %.0f %.0f %.0f\"",
        first, top, last + 1 - first, bottom + 1 - top
    print " preserveAspectRatio=\"none\" fill=\"none\">"
    draw("bid", "green")
    draw("ask", "red")
    if (dots)
        printf "<path stroke=\"blue\" stroke-width=\"5\" stroke-linecap=\"round\" vector-effect=\"non-scaling-stroke\" d=\"%s\"/>\n", dots
    print "</svg>"
}
# The height of a price, for which the picture makes room.
function place(price,    height) {
    height = 0 - price
    top = top == "" || height < top ? height : top
    bottom = bottom == "" || height > bottom ? height : bottom
    return sprintf("%.0f", height)
}
# Goes on with a side's line, which stops where the side is empty.
function step(side, price) {
    if (price == "") {
        if (open[side])
            path[side] = path[side] "H" $1
        open[side] = 0
        return
    }
    path[side] = path[side] (open[side] ? "H" $1 "V" : "M" $1 " ") place(price)
    open[side] = 1
}
function draw(side, colour) {
    if (open[side])
        path[side] = path[side] "H" sprintf("%.0f", last + 1)
    printf "<path stroke=\"%s\" vector-effect=\"non-scaling-stroke\" d=\"%s\"/>\n", colour, path[side]
}
