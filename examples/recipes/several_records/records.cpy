       01  ORDER-V1.
           05  ORDER-NO    PIC 9(4).
           05  AMOUNT      PIC S9(5).
       77  WS-COUNT        PIC 9(4).
       01  ORDER-V2.
           05  ORDER-NO    PIC 9(6).
           05  AMOUNT      PIC S9(7) COMP-3.
