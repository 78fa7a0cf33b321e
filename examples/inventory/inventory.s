# Brings a master tape of parts up to date with transaction cards, and prints a
# report. A card receives (R) or issues (I) a quantity of a part. Both files are
# in the order of part numbers. Register 7 has the value of the stock so far,
# and register 6 the lines on the page.

        .include "s360.inc"
        CSW = 64
        CAW = 72

START:  SR   7,7
        BAL  10,HEADING
        BAL  13,READCARD

NEXT:   LA   1,RDMAST                 # a part of the old master tape
        LA   2,0x180
        BAL  14,INOUT
        TM   CSW+4,0x01               # its end is a part higher than all cards
        BNO  UNPACK
        MVI  MASTER,0xFF
        MVC  MASTER+1(4),MASTER
        B    MATCH
UNPACK: PACK WORK(8),MASTER+25(5)
        CVB  3,WORK                   # the quantity on hand
        SR   4,4                      # received
        SR   5,5                      # issued

MATCH:  CLC  CARD(5),MASTER
        BL   NOPART
        BH   UPDATE
        CLI  CARD,0xFF                # both files have ended
        BE   TOTAL
        PACK WORK(8),CARD+6(5)
        CVB  11,WORK
        CLI  CARD+5,.LC_R
        BE   RECEIPT
        SR   3,11
        AR   5,11
        B    NEXTCARD
RECEIPT: AR  3,11
        AR   4,11
        B    NEXTCARD

NOPART: MVC  LINE(11),CARD            # no master has this part
        MVC  LINE+13(12),NOTFOUND
        BAL  13,PRINT
NEXTCARD: BAL 13,READCARD
        B    MATCH

UPDATE: MVC  LINE(25),MASTER          # a line of the report
        LA   1,LINE+25                # old quantity, received, issued, new
        PACK WORK(8),MASTER+25(5)
        CVB  15,WORK
        BAL  14,NUMBER
        LA   1,LINE+33
        LR   15,4
        BAL  14,NUMBER
        LA   1,LINE+41
        LR   15,5
        BAL  14,NUMBER
        LA   1,LINE+49
        LR   15,3
        BAL  14,NUMBER
        PACK WORK(8),MASTER+30(5)     # its value is quantity times price
        CVB  9,WORK
        MR   8,3
        AR   7,9
        LA   1,LINE+57
        LR   15,9
        BAL  14,NUMBER
        BAL  13,PRINT
        CVD  3,WORK                   # the new master tape
        UNPK MASTER+25(5),WORK+5(3)
        OI   MASTER+29,0xF0
        LA   1,WRMAST
        LA   2,0x181
        BAL  14,INOUT
        B    NEXT

TOTAL:  MVC  LINE(14),VALUE           # the value of the stock
        LA   1,LINE+57
        LR   15,7
        BAL  14,NUMBER
        BAL  13,PRINT
        LA   1,WRMARK
        LA   2,0x181
        BAL  14,INOUT
        LPSW DONE

# Puts the number in register 15 to where register 1 says: seven digits, with
# blanks in place of the zeros before them.
NUMBER: CVD  15,WORK
        UNPK 0(7,1),WORK+4(4)
        OI   6(1),0xF0
        LA   0,6
BLANKS: CLI  0(1),.LC_0
        BNER 14
        MVI  0(1),".LC_ "
        LA   1,1(1)
        BCT  0,BLANKS
        BR   14

# Reads a card. After the last one the card is higher than all parts.
READCARD: LA 1,RDCARD
        LA   2,0x00C
        BAL  14,INOUT
        TM   CSW+4,0x01
        BNOR 13
        MVI  CARD,0xFF
        MVC  CARD+1(4),CARD
        BR   13

# Prints the line, on a new page if this one is full, and blanks it.
PRINT:  C    6,FULL
        BL   ROOM
        BAL  10,HEADING
ROOM:   LA   1,WRLINE
        LA   2,0x00E
        BAL  14,INOUT
        LA   6,1(6)
        MVI  LINE,".LC_ "
        MVC  LINE+1(131),LINE
        BR   13

# Prints the headings of a new page.
HEADING: STM 8,15,SAVED
        L    7,PAGE
        LA   7,1(7)
        ST   7,PAGE
        CVD  7,WORK
        UNPK TITLE+61(3),WORK+6(2)
        OI   TITLE+63,0xF0
        LA   1,WRTITLE
        LA   2,0x00E
        BAL  14,INOUT
        SR   6,6
        LM   8,15,SAVED
        BR   10

# Executes the channel program at register 1 on the unit in register 2.
INOUT:  ST   1,CAW
        SIO  0(2)
        BNZ  ERROR
WAIT:   TIO  0(2)
        BC   2,WAIT
        TM   CSW+4,0x02               # unit check
        BNOR 14
ERROR:  LPSW STOP

        .balign 8
DONE:   .long 0x00020000,0
STOP:   .long 0x00020000,0xBAD
WORK:   .long 0,0
RDMAST: CCW  0x02,MASTER,0,80
WRMAST: CCW  0x01,MASTER,0,80
WRMARK: CCW  0x1F,0,0x20,1
RDCARD: CCW  0x02,CARD,0,80           # the columns from 73 on have a number
WRLINE: CCW  0x09,LINE,0,132
WRTITLE: CCW 0x8B,0,0x60,1
        CCW  0x11,TITLE,0x40,64
        CCW  0x11,COLUMNS,0,64
SAVED:  .skip 64
PAGE:   .long 0
FULL:   .long 6
MASTER: .skip 80
CARD:   .skip 72
TITLE:  EBCDIC "11/29/66  STOCK OF PARTS AND ITS VALUE                  PAGE    "
COLUMNS: EBCDIC "PART DESCRIPTION             OLD      IN     OUT     NEW   VALUE"
LINE:   .fill 132,1,".LC_ "
NOTFOUND: EBCDIC "NO SUCH PART"
VALUE:  EBCDIC "VALUE OF STOCK"
