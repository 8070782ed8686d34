"""Three programs of PDP-10 machine code: an address, a word, and what the word is in MACRO-10. All is octal.

Word 120 is .JBSA: the left half has the first free address, at which rings are set up, the right one the address at
which the program starts.
"""

LINE = "THE QUICK BROWN FOX JUMPS OVER THE LAZY DOG\r\n"
LINES = 30


def words_of(program):
    """Returns the words of a program by their addresses; a word in quotes is the text of LINE, five characters to a
    word."""
    words = {}
    for line in program.strip().split("\n"):
        address, word = line.split()[:2]
        if word == "LINE":
            words.update(enumerate(ascii_words(LINE), int(address, 8)))
        else:
            words[int(address, 8)] = int(word, 8)
    return words


def ascii_words(text):
    """Returns the words of a text and of the null after it."""
    text = (text + "\0").ljust((len(text) + 5) // 5 * 5, "\0")
    return [sum(ord(character) << 29 - 7 * place for place, character in enumerate(text[at : at + 5]))
            for at in range(0, len(text), 5)]


# Dump mode: computes 120 squares in core and writes them by one OUT.
SQUARE = """
    120  002000001000  ;        XWD  2000,START
    1000 047000000000  ; START: RESET
    1001 050040001100  ;        OPEN  1,FILE
    1002 254200001002  ;        HALT  .
    1003 077040001103  ;        ENTER 1,NAME
    1004 254200001004  ;        HALT  .
    1005 205100777660  ;        MOVSI 2,-120
    1006 550140000002  ; NEXT:  HRRZ  3,2
    1007 220140000003  ;        IMUL  3,3
    1010 202142001200  ;        MOVEM 3,1200(2)
    1011 253100001006  ;        AOBJN 2,NEXT
    1012 057040001107  ;        OUT   1,LIST
    1013 254000001015  ;        JRST  .+2
    1014 254200001014  ;        HALT  .
    1015 070040000000  ;        CLOSE 1,
    1016 047000000012  ;        EXIT
    1100 000000000017  ; FILE:  17
    1101 446353000000  ;        SIXBIT /DSK/
    1102 000000000000  ;        0
    1103 636165416245  ; NAME:  SIXBIT /SQUARE/
    1104 444164000000  ;        SIXBIT /DAT/
    1105 000000000000  ;        0
    1106 000000000000  ;        0
    1107 777660001177  ; LIST:  IOWD  120,1200
    1110 000000000000  ;        0
"""

# A ring: writes a line 36 times, character by character.
RING = """
    120  002000001000  ;        XWD  2000,START
    1000 047000000000  ; START: RESET
    1001 050040001100  ;        OPEN  1,FILE
    1002 254200001002  ;        HALT  .
    1003 077040001103  ;        ENTER 1,NAME
    1004 254200001004  ;        HALT  .
    1005 200740001107  ;        MOVE  17,[IOWD 20,1300]
    1006 201200000036  ;        MOVEI 4,36
    1007 200240001110  ; NEXT:  MOVE  5,[POINT 7,TEXT]
    1010 134300000005  ; CHAR:  ILDB  6,5
    1011 322300001014  ;        JUMPE 6,.+3
    1012 260740001030  ;        PUSHJ 17,PUT
    1013 254000001010  ;        JRST  CHAR
    1014 367200001007  ;        SOJG  4,NEXT
    1015 070040000000  ;        CLOSE 1,
    1016 063040040000  ;        STATZ 1,40000
    1017 254200001017  ;        HALT  .
    1020 047000000012  ;        EXIT
    1030 377000001202  ; PUT:   SOSG  OBUF+2
    1031 254000001034  ;        JRST  .+3
    1032 136300001201  ; PUT1:  IDPB  6,OBUF+1
    1033 263740000000  ;        POPJ  17,
    1034 057040000000  ;        OUT   1,
    1035 254000001032  ;        JRST  PUT1
    1036 254200001036  ;        HALT  .
    1100 000000000000  ; FILE:  0
    1101 446353000000  ;        SIXBIT /DSK/
    1102 001200000000  ;        XWD   OBUF,0
    1103 465770000000  ; NAME:  SIXBIT /FOX/
    1104 647064000000  ;        SIXBIT /TXT/
    1105 000000000000  ;        0
    1106 000000000000  ;        0
    1107 777760001277  ;        IOWD  20,1300
    1110 440700001120  ;        POINT 7,TEXT
    1120 LINE          ; TEXT:  ASCIZ
"""

# A copy of that file, character by character: three buffers for input, set up by INBUF, and two for output.
COPY = """
    120  002000001000  ;        XWD  2000,START
    1000 047000000000  ; START: RESET
    1001 041040000000  ;        INIT  1,0
    1002 446353000000  ;        SIXBIT /DSK/
    1003 000000001204  ;        XWD   0,IBUF
    1004 254200001004  ;        HALT  .
    1005 050100001100  ;        OPEN  2,FILE
    1006 254200001006  ;        HALT  .
    1007 076040001103  ;        LOOKUP 1,FROM
    1010 254200001010  ;        HALT  .
    1011 077100001107  ;        ENTER 2,TO
    1012 254200001012  ;        HALT  .
    1013 064040000003  ;        INBUF 1,3
    1014 200740001113  ;        MOVE  17,[IOWD 20,1300]
    1015 260740001040  ; NEXT:  PUSHJ 17,GET
    1016 254000001021  ;        JRST  END
    1017 260740001030  ;        PUSHJ 17,PUT
    1020 254000001015  ;        JRST  NEXT
    1021 070040000000  ; END:   CLOSE 1,
    1022 070100000000  ;        CLOSE 2,
    1023 063100040000  ;        STATZ 2,40000
    1024 254200001024  ;        HALT  .
    1025 047000000012  ;        EXIT
    1030 377000001202  ; PUT:   SOSG  OBUF+2
    1031 254000001034  ;        JRST  .+3
    1032 136300001201  ; PUT1:  IDPB  6,OBUF+1
    1033 263740000000  ;        POPJ  17,
    1034 057100000000  ;        OUT   2,
    1035 254000001032  ;        JRST  PUT1
    1036 254200001036  ;        HALT  .
    1040 377000001206  ; GET:   SOSG  IBUF+2
    1041 254000001045  ;        JRST  .+4
    1042 134300001205  ; GET1:  ILDB  6,IBUF+1
    1043 350017000000  ;        AOS   (17)
    1044 263740000000  ;        POPJ  17,
    1045 056040000000  ;        IN    1,
    1046 254000001042  ;        JRST  GET1
    1047 063040740000  ;        STATZ 1,740000
    1050 254200001050  ;        HALT  .
    1051 263740000000  ;        POPJ  17,
    1100 000000000000  ; FILE:  0
    1101 446353000000  ;        SIXBIT /DSK/
    1102 001200000000  ;        XWD   OBUF,0
    1103 465770000000  ; FROM:  SIXBIT /FOX/
    1104 647064000000  ;        SIXBIT /TXT/
    1105 000000000000  ;        0
    1106 000000000000  ;        0
    1107 435760710000  ; TO:    SIXBIT /COPY/
    1110 647064000000  ;        SIXBIT /TXT/
    1111 000000000000  ;        0
    1112 000000000000  ;        0
    1113 777760001277  ;        IOWD  20,1300
"""
