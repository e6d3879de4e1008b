# Lines of chance for `ddt`: tokens of its grammar, in any order, and bytes. HIRVODAS_LINES is another number of lines than 10,000.
BEGIN {
    lines = ENVIRON["HIRVODAS_LINES"] ? ENVIRON["HIRVODAS_LINES"] + 0 : 10000
    srand(7)
    count = split("LOOP BLK TURNS 5 777777 12. . $Q + - ,, / = _ ; ^ $S $C $T $H $8R $B $3B $X 2$X $W $N $E < > ( ) @ MOVE EXIT .JOB .JOBS .LOCKS .WAITS .REGS .BACK .STEP .TICK .TYPE .TAKE .WATCH .HISTORY .FORWARD .EX .HELP .BREAK CIRCLE GRANT LOCK TO WRITE IF TIMES <> 0 1 2 63", token, " ")
    for (line = 0; line < lines; line++) {
        text = ""
        for (parts = int(rand() * 5); parts >= 0; parts--)
            text = text (rand() < 0.9 ? token[1 + int(rand() * count)] : sprintf("%c", 33 + int(rand() * 94))) (rand() < 0.5 ? " " : "")
        print text
    }
}
