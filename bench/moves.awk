# Writes move lines. -v count=N moves, -v sectors=N of each disk, -v writes=N of each move, -v size=N sectors of each write.
BEGIN {
    for (w = 0; w < writes; w++) {
        list = list (w ? "," : "") "[" w * size "," size "," 1 + w % 255 "]"
    }
    for (i = 1; i <= count; i++) {
        printf "{\"cmd\":\"move\",\"name\":\"v%d\",\"sectors\":%d,\"writes\":[%s]}\n", i, sectors, list
    }
}
