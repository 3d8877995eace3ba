# The table sheet examples/shade.table from its rule: awk -f examples/shade.awk > mine.table
# Change the names, the limits and the rule. The inputs count upward, the last one fastest.
BEGIN {
    print "levels inputs"
    print 4, 3
    print "weight light near ink"
    for (weight = 0; weight < 4; weight++)
        for (light = 0; light < 4; light++)
            for (near = 0; near < 4; near++) {
                ink = weight > near ? weight : near
                if (light >= 2 && ink > 0)
                    ink = ink - 1
                print weight, light, near, ink
            }
}
